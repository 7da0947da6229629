//! Size, alignment and places of all structs that cross the boundary, checked by the compiler.
use super::{
    Answer, Book, Channel, Counted, Found, Leaves, Line, Node, Party, Payment, Ran, Reading,
    Settings, Setup, Signature, Signer, Versions,
};
use crate::sizes::{BOOK_SIZE, SIGNER_SIZE};
use core::mem::offset_of;

/// The size of the field that a function leads to.
const fn width<S, F>(_: fn(&S) -> &F) -> usize {
    size_of::<F>()
}

/// Asserts size and alignment of a struct, the place of each field, and that there is no padding
/// but where it is named.
macro_rules! laid_out {
    (
        $name:ident, $size:expr, $align:literal:
        $($field:ident at $place:literal),+ $(; padding of $padding:literal)?
    ) => {
        const _: () = {
            assert!(size_of::<$name>() == $size);
            assert!(align_of::<$name>() == $align);
            $(assert!(offset_of!($name, $field) == $place);)+
            assert!(0 $(+ width(|whole: &$name| &whole.$field))+ $(+ $padding)? == $size);
        };
    };
}

laid_out!(Party, 64, 8: key at 0, deposit at 56);
laid_out!(Leaves, 8, 4: first at 0, second at 4);
laid_out!(Channel, 192, 8: customer at 0, merchant at 64, deadline at 128, kept at 136,
    delay at 144, status at 148, lock at 152, leaves at 184);
laid_out!(Setup, 272, 4: delay at 0, fee at 4, days at 8, count at 264, dated at 268);
laid_out!(Book, BOOK_SIZE, 8: mark at 0, id at 8, setup at 24, clock at 296, channels at 304);
// The one struct with padding: it is handed over by value and is in no book.
laid_out!(Settings, 12, 4: delay at 0, fee at 4, dated at 8; padding of 3);
laid_out!(Answer, 32, 8: customer at 0, merchant at 8, steps at 16, refusal at 20, fee at 24);
laid_out!(Line, 32, 8: answer at 0);
laid_out!(Reading, 72, 8: total at 0, held at 8, deadline at 16, kept at 24, refusal at 32,
    status at 36, lock at 40);
laid_out!(Found, 2, 1: some at 0, channel at 1);
laid_out!(Ran, 24, 8: lines at 0, used at 8, cause at 16);
laid_out!(Payment, 24, 8: party at 0, channel at 8, amount at 16);
laid_out!(Counted, 16, 8: refusal at 0, payments at 8);
laid_out!(Versions, 16, 4: major at 0, minor at 4, patch at 8, layout at 12);
laid_out!(Node, 32, 1: value at 0);
laid_out!(Signer, SIGNER_SIZE, 4: key at 0, seed at 56, next at 88, nodes at 92);
laid_out!(Signature, 1_456, 4: refusal at 0, bytes at 4);
