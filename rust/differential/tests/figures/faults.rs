//! Ways to make a command fail each check.
use crate::case::{Case, NOBODY};
use finaruvom::raw::{Book, Leaves};
use finaruvom::Seconds;

/// Two keys, the customer's and the merchant's.
type Keys = [[u8; 56]; 2];

/// Ways to make a book unsound that leave channel 0 as it is.
const UNSOUND: [fn(&mut Book); 19] = [
    |book| book.mark ^= 1,
    |book| book.setup.delay = 3_599,
    |book| book.setup.delay = 2_592_001,
    |book| book.setup.delay = u32::MAX,
    |book| book.setup.fee = 1_001,
    |book| book.setup.fee = u32::MAX,
    |book| book.setup.dated = 2,
    |book| book.setup.dated = 256,
    |book| book.setup.count = 65,
    |book| book.setup.count = u32::MAX,
    |book| book.setup.count = 2,
    |book| (book.setup.count, book.setup.days[1]) = (3, 1),
    |book| (book.setup.count, book.setup.days[0]) = (1, 157_054),
    |book| (book.setup.count, book.setup.days[0]) = (1, u32::MAX),
    |book| book.clock = Seconds(1 << 63),
    |book| book.channels[63].status = 7,
    |book| book.channels[63].status = 256,
    |book| book.channels[63].status = 259,
    |book| book.channels[63].status = u32::MAX,
];

impl Case {
    /// The case made to fail this check, in some ways.
    pub fn failing(&self, check: u8) -> Vec<Case> {
        match check {
            1 | 2 | 99 => self.failing_form(check),
            3 | 4 | 5 | 9 => self.failing_state(check),
            6..=8 => self.failing_terms(check),
            _ => self.failing_proof(check),
        }
    }

    /// The case once for each value, which `put` puts in its place.
    fn each<T: Copy>(&self, values: &[T], put: impl Fn(&mut Case, T)) -> Vec<Case> {
        let with = |value: &T| {
            let mut case = self.clone();
            put(&mut case, *value);
            case
        };
        values.iter().map(with).collect()
    }

    /// An unsound book, an unknown first byte, or a wrong length.
    fn failing_form(&self, check: u8) -> Vec<Case> {
        let whole = self.length;
        match check {
            99 => self.each(&UNSOUND, |case, make| make(&mut case.book)),
            1 => self.each(&[0x00, 0x0b, 0xff], |case, first| case.first = first),
            _ => self.each(&[1, whole - 1, whole + 1], |case, n| case.length = n),
        }
    }

    /// A time, a channel, a status or a deadline that doesn't allow it.
    fn failing_state(&self, check: u8) -> Vec<Case> {
        let opcode = self.plan.opcode;
        match check {
            3 => self.each(&[1_000 - 1, 1 << 63, u64::MAX], |case, time| {
                case.plan.numbers[0] = time;
            }),
            4 => self.each(&[64, 256, u16::MAX], |case, n| {
                case.plan.n = n;
                case.plan.signed.2 = n;
            }),
            5 => self.each(forbidden(opcode), |case, status| {
                case.book.channels[0].status = status;
                case.book.channels[0].delay = 3_600;
            }),
            _ => self.each(&[u64::from(opcode == 0x0a)], |case, later| {
                case.book.channels[0].deadline = Seconds(case.book.clock.0 + later);
            }),
        }
    }

    /// Keys, a delay or cents that don't fit.
    fn failing_terms(&self, check: u8) -> Vec<Case> {
        match check {
            6 => self.each(&wrong_keys(self.plan.keys), |case, keys| {
                case.plan.keys = keys;
            }),
            7 => self.each(&[1, 3_599, 2_592_001, u32::MAX], |case, delay| {
                case.plan.delay = delay;
            }),
            _ => self.each(wrong_cents(self.plan.opcode), |case, cents| {
                case.plan.numbers = cents;
            }),
        }
    }

    /// A wrong secret, a bad signature, by each for the other, by a third, or by nobody, or a leaf
    /// that the channel remembers.
    fn failing_proof(&self, check: u8) -> Vec<Case> {
        let Leaves { first, second } = self.book.channels[0].leaves;
        match check {
            10 => self.each(&[0, 31], |case, at| case.plan.string[at] ^= 1),
            11 => self.each(&[0, 2, NOBODY], |case, party| {
                case.plan.signers[0].party = party;
            }),
            12 => self.each(&[1, 2, NOBODY], |case, party| {
                case.plan.signers[1].party = party;
            }),
            _ => self.each(&[first, second], |case, leaf| {
                case.plan.signers[0].leaf = Some(leaf);
            }),
        }
    }
}

/// The statuses that do not allow a command.
fn forbidden(opcode: u8) -> &'static [u32] {
    match opcode {
        0x02 => &[1, 2, 3, 4, 5, 6],
        0x03 => &[0, 2, 3, 4, 5, 6],
        0x04 | 0x05 => &[0, 1, 3, 4, 5, 6],
        0x06 | 0x08 => &[0, 1, 2, 4, 5, 6],
        0x07 => &[0, 1, 2, 5, 6],
        0x09 => &[0, 1, 2, 3, 4, 6],
        _ => &[0, 1, 2, 3, 6],
    }
}

/// A wrong type in either key, or equal keys.
fn wrong_keys(keys: Keys) -> [Keys; 6] {
    let typed = |party: usize, at: usize| {
        let mut keys = keys;
        keys[party][at] ^= 1;
        keys
    };
    let [customer, merchant] = keys;
    [
        typed(0, 3),
        typed(0, 7),
        typed(1, 3),
        typed(1, 7),
        [customer; 2],
        [merchant; 2],
    ]
}

/// Cents that do not fit, deposits being 900 and 100.
fn wrong_cents(opcode: u8) -> &'static [[u64; 2]] {
    match opcode {
        0x02 => &[[0, 0], [0, 1 << 63], [1 << 63, 0], [1, u64::MAX]],
        0x03 => &[[899, 0], [100, 0], [1_000, 0]],
        0x04 => &[[99, 0], [900, 0], [1_000, 0]],
        _ => &[[400, 601], [399, 600], [u64::MAX, 1_001]],
    }
}
