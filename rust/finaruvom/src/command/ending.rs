//! The commands that end a closing.
use super::writer::Writer;
use crate::sizes::{DIGEST_SIZE, ID_SIZE, SIGNATURE_SIZE};

/// 09: before the deadline the merchant shows the secret of the lock, and is paid what was kept for
/// the customer. It is signed with another leaf than the merchant's signatures in the channel's 08
/// and 07, which the channel remembers.
///
/// ```
/// use finaruvom::command::Dispute;
/// # let merchant = oracle::Signer::with_leaves([2; 32], [2; 16], &[0]);
///
/// let dispute = Dispute { channel: 5, secret: [0x5e; 32] };
/// let message = dispute.message(b"corner desk 2026");
/// assert_eq!(message[..19], *b"\x09corner desk 2026\x00\x05");
/// assert_eq!(message[19..], dispute.secret);
/// let command = dispute.command(&merchant.sign(0, &[3; 32], &message));
/// assert_eq!(command[..3], [0x09, 0, 5]);
/// ```
#[derive(Clone, Copy, Debug, PartialEq, Eq, Hash)]
pub struct Dispute {
    /// The channel.
    pub channel: u16,
    /// The secret, whose SHA-256 is the lock.
    pub secret: [u8; DIGEST_SIZE],
}

impl Dispute {
    /// What the merchant signs, in the book with this id.
    #[must_use]
    pub fn message(&self, book: &[u8; ID_SIZE]) -> [u8; 51] {
        self.operands(Writer::new(0x09).bytes(book)).done()
    }

    /// The command, with the merchant's signature.
    #[must_use]
    pub fn command(&self, merchant: &[u8; SIGNATURE_SIZE]) -> [u8; 1_487] {
        self.operands(Writer::new(0x09)).bytes(merchant).done()
    }

    fn operands<const N: usize>(self, head: Writer<N>) -> Writer<N> {
        head.channel(self.channel).bytes(&self.secret)
    }
}

/// 0A: settles a closing at its deadline or later. It pays the customer what was kept, or the
/// merchant all where the merchant closed and nobody answered.
///
/// ```
/// use finaruvom::command::Settle;
///
/// assert_eq!(Settle { channel: 63 }.command(), [0x0a, 0, 63]);
/// ```
#[derive(Clone, Copy, Debug, PartialEq, Eq, Hash)]
pub struct Settle {
    /// The channel.
    pub channel: u16,
}

impl Settle {
    /// The command.
    #[must_use]
    pub fn command(&self) -> [u8; 3] {
        Writer::new(0x0a).channel(self.channel).done()
    }
}
