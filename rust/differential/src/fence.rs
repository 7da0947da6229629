//! Memory to lend, with guard bytes on both sides.

const GUARD: u8 = 0xc7;
/// Guard bytes on each side, at least.
const WIDTH: usize = 64;

/// A buffer between guard bytes.
pub struct Fenced {
    memory: Vec<u64>,
    start: usize,
    given: Vec<u8>,
}

impl Fenced {
    /// A buffer with these bytes that starts `shift` bytes behind a multiple of eight.
    pub fn new(bytes: Vec<u8>, shift: usize) -> Fenced {
        let start = WIDTH + shift;
        let words = (start + bytes.len() + WIDTH).div_ceil(8);
        let mut fenced = Fenced {
            memory: vec![u64::from_ne_bytes([GUARD; 8]); words],
            start,
            given: bytes,
        };
        let length = 8 * words;
        // SAFETY: words are readable and writable as bytes.
        let all: &mut [u8] =
            unsafe { std::slice::from_raw_parts_mut(fenced.memory.as_mut_ptr().cast(), length) };
        all[start..start + fenced.given.len()].copy_from_slice(&fenced.given);
        fenced
    }

    /// Where the buffer starts.
    pub fn pointer<T>(&mut self) -> *mut T {
        // SAFETY: the start lies in the memory.
        unsafe { self.memory.as_mut_ptr().cast::<u8>().add(self.start).cast() }
    }

    /// How many bytes the buffer has.
    pub fn length(&self) -> usize {
        self.given.len()
    }

    /// The bytes that stand in the buffer.
    pub fn bytes(&self) -> &[u8] {
        &self.all()[self.start..][..self.given.len()]
    }

    /// Whether every guard byte is as it was.
    pub fn intact(&self) -> bool {
        let (before, rest) = self.all().split_at(self.start);
        let after = &rest[self.given.len()..];
        before.iter().chain(after).all(|byte| *byte == GUARD)
    }

    /// Whether the buffer is as it was from this byte on, which it has or ends with.
    pub fn stays_from(&self, start: usize) -> bool {
        start <= self.given.len() && self.bytes()[start..] == self.given[start..]
    }

    /// Whether the buffer is as it was too.
    pub fn untouched(&self) -> bool {
        self.intact() && self.bytes() == self.given
    }

    fn all(&self) -> &[u8] {
        // SAFETY: words are readable as bytes.
        unsafe { std::slice::from_raw_parts(self.memory.as_ptr().cast(), 8 * self.memory.len()) }
    }
}
