//! Faults by themselves and two at once: the first check that says no decides.
use crate::case::Case;
use crate::desk::{refused, Desk};
use finaruvom::Book;

/// A command, the desk that carries it out, and the checks from 3 on that apply to it, in order.
type Row = (u8, fn() -> Desk, &'static [u8]);

const ROWS: [Row; 15] = [
    (0x01, Desk::new, &[3]),
    (0x02, Desk::new, &[4, 5, 6, 7, 8]),
    (0x03, Desk::established, &[4, 5, 8]),
    (0x04, Desk::funded, &[4, 5, 8]),
    (0x04, Desk::credit, &[4, 5, 8]),
    (0x05, Desk::funded, &[4, 5, 12]),
    (0x05, Desk::credit, &[4, 5, 12]),
    (0x06, Desk::open, &[4, 5, 8, 11, 12]),
    (0x07, Desk::open, &[4, 5, 8, 11, 12]),
    (0x07, Desk::merchant_closing, &[4, 5, 8, 9, 11, 12]),
    (0x08, Desk::open, &[4, 5, 11]),
    (0x09, Desk::closing, &[4, 5, 9, 10, 11, 16]),
    (0x09, Desk::answered, &[4, 5, 9, 10, 11, 16]),
    (0x0a, || Desk::merchant_closing().at(4_600), &[4, 5, 9]),
    (0x0a, || Desk::closing().at(4_600), &[4, 5, 9]),
];

/// Gives a command without a fault, with each, and with every two.
fn hold((opcode, desk, applying): Row) {
    let answered = |case: &Case, refusal, faults: &[u8]| {
        let answer = case.answer();
        let number = answer.as_raw().refusal;
        assert_eq!(
            number,
            u32::from(refusal),
            "{opcode:02X} failing {faults:?}"
        );
    };
    let right = Case::new(&desk(), opcode);
    answered(&right, 0, &[]);
    let mut later = [&[99, 1, 2], applying].concat();
    while !later.is_empty() {
        let first = later.remove(0);
        for case in right.failing(first) {
            answered(&case, first, &[first]);
            for &second in &later {
                for case in case.failing(second) {
                    answered(&case, first, &[first, second]);
                }
            }
        }
    }
}

#[test]
fn the_first_no_decides() {
    ROWS.into_iter().for_each(hold);
}

#[test]
fn no_first_byte() {
    let mut book = Desk::new().book;
    assert_eq!(*book.apply(&[]).as_raw(), refused(1));
    let mut raw = book.as_raw().clone();
    raw.mark ^= 1;
    let mut book = Book::from_raw(raw);
    assert_eq!(*book.apply(&[]).as_raw(), refused(99));
}
