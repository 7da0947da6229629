//! What is filed in each scene, with which leaves, and how it is answered.

/// Places of three different leaves; which ones, the case decides.
const A: usize = 0;
const B: usize = 1;
const C: usize = 2;

/// The channels of a scene, in the order of their numbers.
#[derive(Clone, Copy)]
pub enum Account {
    First,
    /// The same two sides once more.
    Second,
    /// Each side in the other's place; the merchant has not funded yet.
    Swapped,
}

/// What is wrong with a command.
#[derive(Clone, Copy)]
pub enum Fault {
    Secret,
    /// A bit of the merchant's signature, behind its leaf.
    Merchant,
    Customer,
    /// The one-time type of the merchant's signature, so that no chain is walked.
    Form,
    /// The merchant's signature names this leaf, and not the one that made it.
    Named(usize),
}

/// A command and its answer.
#[derive(Clone, Copy)]
pub struct Step {
    pub account: Account,
    pub opcode: u8,
    /// The places of the merchant's and of the customer's leaf, where these matter.
    pub leaves: [Option<usize>; 2],
    pub fault: Option<Fault>,
    pub refusal: u8,
}

impl Step {
    const fn refused(mut self, refusal: u8) -> Step {
        self.refusal = refusal;
        self
    }

    const fn wrong(mut self, fault: Fault, refusal: u8) -> Step {
        self.fault = Some(fault);
        self.refused(refusal)
    }

    const fn at(mut self, account: Account) -> Step {
        self.account = account;
        self
    }

    /// The customer signs with this leaf.
    const fn beside(mut self, leaf: usize) -> Step {
        self.leaves[1] = Some(leaf);
        self
    }
}

/// An accepted command to the first channel, with any leaves; an 01 sets the clock to its deadline.
const fn plain(opcode: u8) -> Step {
    Step {
        account: Account::First,
        opcode,
        leaves: [None; 2],
        fault: None,
        refusal: 0,
    }
}

/// An accepted command to the first channel that the merchant signs with this leaf.
const fn by(opcode: u8, leaf: usize) -> Step {
    let mut step = plain(opcode);
    step.leaves[0] = Some(leaf);
    step
}

/// The scenes by their names. The leaves that a dispute must not have are those of the merchant in
/// the accepted 08 and 07 of its channel.
pub const SCENES: [(&str, &[Step]); 17] = [
    (
        "the leaf of a 07",
        &[
            by(7, A),
            by(9, A).refused(16),
            by(9, A).refused(16),
            by(9, B),
        ],
    ),
    (
        "the leaves of an 08 and of its answer",
        &[
            by(8, A),
            by(7, B),
            by(9, A).refused(16),
            by(9, B).refused(16),
            by(9, C),
        ],
    ),
    (
        "an answer with the leaf of its 08",
        &[by(8, A), by(7, A), by(9, A).refused(16), by(9, B)],
    ),
    (
        "the leaves of another channel",
        &[
            by(8, A).at(Account::Second),
            by(7, B).at(Account::Second),
            by(7, C),
            by(9, A),
            by(9, B).at(Account::Second).refused(16),
            by(9, C).at(Account::Second),
        ],
    ),
    (
        "the leaf of an 06 in another channel",
        &[by(6, A).at(Account::Second), by(7, B), by(9, A)],
    ),
    (
        "the leaf of a refused 06",
        &[by(6, A).wrong(Fault::Customer, 12), by(7, B), by(9, A)],
    ),
    (
        "the leaf of a 05 by the merchant of another channel",
        &[plain(5).beside(A).at(Account::Swapped), by(7, B), by(9, A)],
    ),
    (
        "the customer's leaf in a 07",
        &[by(7, A).beside(B), by(9, B)],
    ),
    (
        "the leaf of a 07 refused with 11",
        &[by(7, A).wrong(Fault::Merchant, 11), by(7, B), by(9, A)],
    ),
    (
        "the leaf of a 07 refused with 12",
        &[by(7, A).wrong(Fault::Customer, 12), by(7, B), by(9, A)],
    ),
    (
        "the leaf of an answer refused with 12",
        &[
            by(8, A),
            by(7, B).wrong(Fault::Customer, 12),
            by(7, C),
            by(9, A).refused(16),
            by(9, C).refused(16),
            by(9, B),
        ],
    ),
    (
        "the leaf of an 08 refused with 11",
        &[
            by(8, A).wrong(Fault::Merchant, 11),
            by(8, B),
            by(7, C),
            by(9, A),
        ],
    ),
    (
        "the leaf of a second 08",
        &[by(8, A), by(8, B).refused(5), by(7, C), by(9, B)],
    ),
    (
        "the leaf of disputes refused with 10 and 11",
        &[
            by(7, A),
            by(9, B).wrong(Fault::Secret, 10),
            by(9, B).wrong(Fault::Merchant, 11),
            by(9, B).wrong(Fault::Form, 11),
            by(9, B),
        ],
    ),
    (
        "bad signatures that name a remembered leaf",
        &[
            by(7, A),
            by(9, A).wrong(Fault::Secret, 10),
            by(9, A).wrong(Fault::Merchant, 11),
            by(9, A).wrong(Fault::Form, 11),
            by(9, B).wrong(Fault::Named(A), 11),
            by(9, A).refused(16),
            by(9, B),
        ],
    ),
    (
        "a remembered leaf named as another",
        &[by(7, A), by(9, A).wrong(Fault::Named(B), 11), by(9, B)],
    ),
    (
        "disputes at the deadline",
        &[
            by(7, A),
            plain(1),
            by(9, A).refused(9),
            by(9, B).refused(9),
            plain(10),
        ],
    ),
];
