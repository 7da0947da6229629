//! Writes a command or a message part by part.
use crate::units::Cents;

/// A string of `N` bytes, of which some are written.
pub struct Writer<const N: usize> {
    bytes: [u8; N],
    written: usize,
}

impl<const N: usize> Writer<N> {
    /// The string with its first byte.
    pub const fn new(opcode: u8) -> Writer<N> {
        let mut bytes = [0; N];
        bytes[0] = opcode;
        Writer { bytes, written: 1 }
    }

    /// The string with a channel's number behind it.
    pub fn channel(self, n: u16) -> Writer<N> {
        self.bytes(&n.to_be_bytes())
    }

    /// The string with cents behind it.
    pub fn cents(self, cents: Cents) -> Writer<N> {
        self.bytes(&cents.0.to_be_bytes())
    }

    /// The string with a part behind it.
    pub fn bytes(mut self, part: &[u8]) -> Writer<N> {
        self.bytes[self.written..][..part.len()].copy_from_slice(part);
        self.written += part.len();
        self
    }

    /// The string, which must be whole.
    pub fn done(self) -> [u8; N] {
        assert_eq!(self.written, N, "bytes written, and bytes of the string");
        self.bytes
    }
}
