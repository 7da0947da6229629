//! Journals and what the statement program prints of them.
use super::stored::journals;
use crate::journal::statement;

#[test]
fn published() {
    for (input, expected) in journals() {
        assert_eq!(statement(&input), expected);
    }
}

#[test]
fn of_the_paper() {
    let journal = [1, 0, 0, 0, 0, 0, 0, 0x03, 0xe8, 0x0a, 0, 0];
    let input = [&[0; 16][..], &journal].concat();
    assert_eq!(statement(&input), "1 0 0 0 0 0\n2 5 0 0 0 0\nend 12 0\n");
}

#[test]
fn of_a_wrong_length() {
    assert_eq!(statement(&[0; 15]), "no book\n");
    assert_eq!(statement(&[0; 16]), "end 0 0\n");
    assert_eq!(statement(&[0; 65_536]), "end 0 1\n");
    assert_eq!(statement(&[0; 65_537]), "too long\n");
}
