//! The archive that is linked.
use crate::raw::{self, Versions};
use crate::sizes::LAYOUT;

/// The version of the library that is linked, and the layout of its books.
///
/// ```
/// assert_eq!(finaruvom::version().layout, finaruvom::LAYOUT);
/// ```
pub fn version() -> Versions {
    // SAFETY: nothing is lent.
    unsafe { raw::finaruvom_version() }
}

/// Keeps the crate from being linked with an archive of another layout, whose name for it differs.
pub(crate) fn same_layout() {
    // SAFETY: nothing is lent.
    let layout = unsafe { raw::finaruvom_layout_6() };
    assert_eq!(layout, LAYOUT);
}
