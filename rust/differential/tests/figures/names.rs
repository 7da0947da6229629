//! A command that fails one check gets the refusal of that name.
use crate::case::Case;
use crate::desk::Desk;
use finaruvom::Refusal;

/// A refusal by its name, the check that it stands for, and a command that can fail it.
type Row = (Refusal, u8, u8, fn() -> Desk);

const ROWS: [Row; 14] = [
    (Refusal::Unsound, 99, 0x01, Desk::new),
    (Refusal::Unknown, 1, 0x01, Desk::new),
    (Refusal::Length, 2, 0x01, Desk::new),
    (Refusal::Time, 3, 0x01, Desk::new),
    (Refusal::Channel, 4, 0x03, Desk::established),
    (Refusal::Status, 5, 0x03, Desk::established),
    (Refusal::Keys, 6, 0x02, Desk::new),
    (Refusal::Delay, 7, 0x02, Desk::new),
    (Refusal::Cents, 8, 0x03, Desk::established),
    (Refusal::Deadline, 9, 0x09, Desk::closing),
    (Refusal::Secret, 10, 0x09, Desk::closing),
    (Refusal::Merchant, 11, 0x06, Desk::open),
    (Refusal::Customer, 12, 0x06, Desk::open),
    (Refusal::SpentLeaf, 16, 0x09, Desk::closing),
];

#[test]
fn refusals_by_name() {
    for (name, check, opcode, desk) in ROWS {
        for case in Case::new(&desk(), opcode).failing(check) {
            assert_eq!(case.answer().refused(), Some(name), "check {check}");
        }
    }
}
