//! One command on one book, with its faults or without.
use crate::desk::{plan, refused, wallet, without_steps, Desk, ID};
use differential::plan::Plan;
use finaruvom::raw::{self, Book};
use finaruvom::Answer;
use oracle::SIGNATURE;

/// Whole lengths of the commands 01 to 0A.
const LENGTHS: [usize; 10] = [9, 135, 11, 11, 1455, 2923, 2955, 1455, 1487, 3];
/// A signer whose signature is zeros, so that its types are wrong.
pub const NOBODY: usize = usize::MAX;

/// A command, and the book that it is given to.
#[derive(Clone)]
pub struct Case {
    /// The book before.
    pub book: Book,
    /// What is signed and written.
    pub plan: Plan,
    /// The first byte of what is given.
    pub first: u8,
    /// How many bytes are given.
    pub length: usize,
}

impl Case {
    /// A command that the desk carries out.
    pub fn new(desk: &Desk, opcode: u8) -> Case {
        let numbers = match opcode {
            0x01 => [1_001, 0],
            0x04 => [100, 0],
            0x06 | 0x07 => [400, 600],
            _ => [900, 100],
        };
        Case {
            book: desk.book.as_raw().clone(),
            plan: plan(opcode, numbers),
            first: opcode,
            length: LENGTHS[usize::from(opcode) - 1],
        }
    }

    /// The library's answer. A refused command pays and changes nothing, and the steps are those of
    /// the checks made.
    pub fn answer(&self) -> Answer {
        let command = self.write();
        let mut book = finaruvom::Book::from_raw(self.book.clone());
        let answer = book.apply(&command);
        let raw::Answer { refusal, steps, .. } = *answer.as_raw();
        let what = format!("{:02X} answered with {refusal}", self.plan.opcode);
        assert_eq!(steps, self.steps(&command, refusal), "{what}");
        if refusal != 0 {
            assert_eq!(without_steps(&answer), refused(refusal), "{what}");
            assert!(*book.as_raw() == self.book, "{what} changed the book");
        }
        answer
    }

    /// The command's bytes.
    fn write(&self) -> Vec<u8> {
        let mut bytes = self.plan.write(|hand, message| match hand.party {
            NOBODY => [0; SIGNATURE],
            _ => wallet().sign(hand, message),
        });
        bytes[0] = self.first;
        bytes.resize(self.length, 0);
        bytes
    }

    /// The chain steps of the signature checks that are made before a command is answered so.
    fn steps(&self, command: &[u8], refusal: u32) -> u32 {
        let channel = &self.book.channels[0];
        let (merchant, customer) = (&channel.merchant.key, &channel.customer.key);
        let keys: &[&[u8; 56]] = match (self.plan.opcode, refusal) {
            (0x05, 0 | 12) => &[customer],
            (0x06 | 0x07, 0 | 12) => &[merchant, customer],
            (0x06..=0x09, 0 | 11 | 16) => &[merchant],
            _ => &[],
        };
        let start = match self.plan.opcode {
            0x06 => 19,
            0x07 => 51,
            0x09 => 35,
            _ => 3,
        };
        let check = |(place, key): (usize, &&[u8; 56])| {
            let message = [&command[..1], &ID, &command[1..start]].concat();
            let signature = &command[start + place * SIGNATURE..][..SIGNATURE];
            check_steps(key, &message, signature)
        };
        keys.iter().enumerate().map(check).sum()
    }
}

/// The steps of one check: none where a type is wrong, else 255 × (high checksum byte + 2).
fn check_steps(key: &[u8; 56], message: &[u8], signature: &[u8]) -> u32 {
    if signature[4..8] != [0, 0, 0, 4] {
        return 0;
    }
    let (leaf, c) = (&signature[..4], &signature[8..40]);
    let hashed = [&key[8..24], leaf, &[0x81, 0x81], c, message].concat();
    let q = finaruvom::hash(&hashed).unwrap();
    let checksum: u32 = q.iter().map(|&byte| 255 - u32::from(byte)).sum();
    255 * (checksum / 256 + 2)
}
