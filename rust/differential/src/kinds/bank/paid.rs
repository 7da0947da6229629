//! Commands and lines by what is collected from them.
use finaruvom::raw::Line;
use oracle::bank::LARGEST_AMOUNT;

/// The first byte of a command and its n, and the line beside it.
pub struct Beside {
    pub opcode: u8,
    pub n: u16,
    pub line: Line,
}

type Kind = (&'static str, fn(&Beside) -> bool);

const KINDS: [Kind; 18] = [
    ("passed over amounts beside a 01", Beside::passed_over),
    ("collected for nobody", |it| it.pays(false, false)),
    ("collected for the customer alone", |it| {
        it.pays(true, false)
    }),
    ("collected for the merchant alone", |it| {
        it.pays(false, true)
    }),
    ("collected for both", |it| it.pays(true, true)),
    ("collected beside a fee", |it| {
        it.pays(false, true) && it.fee() > 0
    }),
    ("collected beside a fee, no merchant paid", |it| {
        it.pays(true, false) && it.fee() > 0
    }),
    ("collected nothing of a fee alone", |it| {
        it.pays(false, false) && it.fee() > 0
    }),
    ("collected from a refused line", |it| {
        it.collected() && it.line.answer.refusal != 0
    }),
    ("collected 1", |it| it.has(1)),
    ("collected 999,999,999,999,999", |it| it.has(LARGEST_AMOUNT)),
    ("collected 10^15", |it| it.has(LARGEST_AMOUNT + 1)),
    ("collected 2^64 - 1", |it| it.has(u64::MAX)),
    ("collected with n 63", |it| it.names(63)),
    ("collected with n 64", |it| it.names(64)),
    ("collected with n 255", |it| it.names(255)),
    ("collected with n 256", |it| it.names(256)),
    ("collected with n 65,535", |it| it.names(65_535)),
];

impl Beside {
    /// What the line shows for customer and merchant.
    fn amounts(&self) -> [u64; 2] {
        [self.line.answer.customer.0, self.line.answer.merchant.0]
    }

    fn fee(&self) -> u64 {
        self.line.answer.fee.0
    }

    fn passed_over(&self) -> bool {
        self.opcode == 1 && self.amounts() != [0, 0]
    }

    fn collected(&self) -> bool {
        self.opcode != 1 && self.amounts() != [0, 0]
    }

    /// Whether something is collected for the customer, and for the merchant.
    fn pays(&self, customer: bool, merchant: bool) -> bool {
        let pays = self.amounts().map(|amount| amount > 0);
        self.opcode != 1 && pays == [customer, merchant]
    }

    fn has(&self, amount: u64) -> bool {
        self.opcode != 1 && self.amounts().contains(&amount)
    }

    fn names(&self, n: u16) -> bool {
        self.collected() && self.n == n
    }
}

/// The names of these kinds.
pub fn names() -> impl Iterator<Item = &'static str> {
    KINDS.iter().map(|(name, _)| *name)
}

/// The kinds of a command and its line.
pub fn paid(beside: &Beside) -> impl Iterator<Item = &'static str> + use<'_> {
    let found = KINDS.iter().filter(|(_, fits)| fits(beside));
    found.map(|(name, _)| *name)
}
