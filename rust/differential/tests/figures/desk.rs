//! A desk with the paper's figures: channel 0, deposits 900 and 100, delay 3,600, clock 1,000.
use differential::plan::{Hand, Plan};
use differential::wallet::Wallet;
use finaruvom::raw::{Answer, Channel};
use finaruvom::{Book, Cents};
use std::sync::{LazyLock, Mutex, MutexGuard};

pub const ID: [u8; 16] = [1; 16];

/// The keys and signatures that all desks share.
pub fn wallet() -> MutexGuard<'static, Wallet> {
    static WALLET: LazyLock<Mutex<Wallet>> = LazyLock::new(Mutex::default);
    WALLET.lock().unwrap()
}

/// The secret of the customer's closing.
pub fn secret() -> [u8; 32] {
    wallet().secrets()[0]
}

/// A desk with its book.
pub struct Desk {
    pub book: Book,
}

impl Desk {
    /// A book with the clock at 1,000.
    pub fn new() -> Desk {
        let book = Book::open(&ID).unwrap();
        let mut desk = Desk { book };
        assert_eq!(desk.give(0x01, [1_000, 0]), paid(0, 0));
        desk
    }

    /// The channel established.
    pub fn established() -> Desk {
        let mut desk = Desk::new();
        assert_eq!(desk.give(0x02, [900, 100]), paid(0, 0));
        desk
    }

    /// The channel established with a deposit of the merchant alone.
    pub fn credit() -> Desk {
        let mut desk = Desk::new();
        assert_eq!(desk.give(0x02, [0, 100]), paid(0, 0));
        desk
    }

    /// The channel established, and funded by the customer.
    pub fn funded() -> Desk {
        let mut desk = Desk::established();
        assert_eq!(desk.give(0x03, [900, 0]), paid(0, 0));
        desk
    }

    /// The channel funded by both.
    pub fn open() -> Desk {
        let mut desk = Desk::funded();
        assert_eq!(desk.give(0x04, [100, 0]), paid(0, 0));
        desk
    }

    /// The channel closed by the merchant.
    pub fn merchant_closing() -> Desk {
        let mut desk = Desk::open();
        assert_eq!(desk.give(0x08, [0, 0]), paid(0, 0));
        desk
    }

    /// The channel closed by the customer with 700 and 300.
    pub fn closing() -> Desk {
        let mut desk = Desk::open();
        assert_eq!(desk.give(0x07, [700, 300]), paid(0, 300));
        desk
    }

    /// The channel closed by the merchant, and by the customer in answer.
    pub fn answered() -> Desk {
        let mut desk = Desk::merchant_closing();
        assert_eq!(desk.give(0x07, [700, 300]), paid(0, 300));
        desk
    }

    pub fn channel(&self) -> &Channel {
        &self.book.as_raw().channels[0]
    }

    /// Sets the clock.
    pub fn at(mut self, time: u64) -> Desk {
        assert_eq!(self.give(0x01, [time, 0]), paid(0, 0));
        self
    }

    /// Signs a command and gives it.
    pub fn file(&mut self, plan: &Plan) -> Answer {
        let command = plan.write(|hand, message| wallet().sign(hand, message));
        *self.book.apply(&command).as_raw()
    }

    /// Gives the command with these numbers; the answer comes without its chain steps.
    pub fn give(&mut self, opcode: u8, numbers: [u64; 2]) -> Answer {
        let answer = self.file(&plan(opcode, numbers));
        Answer { steps: 0, ..answer }
    }
}

/// A command with these numbers, and the right operands beside them. The merchant signs an 08 with
/// leaf 7, a 07 with 9, a 09 with 8.
pub fn plan(opcode: u8, numbers: [u64; 2]) -> Plan {
    let string = match opcode {
        0x09 => secret(),
        _ => finaruvom::hash(&secret()).unwrap(),
    };
    let leaf = match opcode {
        0x07 => Some(9),
        0x08 => Some(7),
        0x09 => Some(8),
        _ => None,
    };
    Plan {
        opcode,
        n: 0,
        numbers,
        keys: [0, 1].map(|party| wallet().key(party)),
        delay: 3_600,
        string,
        signers: [Hand { party: 1, leaf }, 0.into()],
        signed: (opcode, ID, 0),
    }
}

/// An answer but for its chain steps.
pub fn without_steps(answer: &finaruvom::Answer) -> Answer {
    let answer = *answer.as_raw();
    Answer { steps: 0, ..answer }
}

pub fn paid(customer: u64, merchant: u64) -> Answer {
    Answer {
        customer: Cents(customer),
        merchant: Cents(merchant),
        ..Answer::default()
    }
}

/// What was paid, of which the desk keeps a fee: the merchant's figure is without it.
pub fn charged(customer: u64, merchant: u64, fee: u64) -> Answer {
    Answer {
        fee: Cents(fee),
        ..paid(customer, merchant)
    }
}

pub fn refused(refusal: u32) -> Answer {
    Answer {
        refusal,
        ..Answer::default()
    }
}
