//! How long a command is.
use crate::raw;

/// The whole length of the command that begins with this byte, if it begins one.
///
/// ```
/// use finaruvom::command::{size, Settle};
///
/// assert_eq!(size(0x0a), Some(Settle { channel: 0 }.command().len()));
/// assert_eq!(size(0x0b), None);
/// ```
#[must_use]
pub fn size(first: u8) -> Option<usize> {
    // SAFETY: nothing is lent.
    let size = unsafe { raw::finaruvom_size(first) };
    (size > 0).then_some(size)
}
