//! Lives of channels whose commands are all built and signed: library and oracle accept each.
use crate::build::build;
use differential::bridge::{to_answer, to_raw};
use differential::lives::{lives, Terms};
use differential::rng::Rng;
use differential::wallet::Wallet;
use finaruvom::{Book, Date, Settings};
use oracle::PLAIN_DEFAULT;

/// Two books that are given the same commands.
struct Desk<'a> {
    wallet: &'a mut Wallet,
    library: Book,
    oracle: oracle::Book,
}

impl Desk<'_> {
    /// Gives both the command that the builder writes.
    fn file(&mut self, terms: &Terms, opcode: u8, time: u64) {
        let sign = &mut |hand, message: &[u8]| self.wallet.sign(hand, message);
        let command = build(&terms.plan(opcode, time), sign).command;
        let before = self.library.as_raw().clone();
        let answer = self.library.apply(&command);
        assert_eq!(answer.refused(), None, "{opcode:02X}");
        let expected = oracle::apply(&mut self.oracle, &command);
        assert_eq!(*answer.as_raw(), to_answer(&expected), "{opcode:02X}");
        let book = to_raw(&self.oracle, &before);
        assert!(*self.library.as_raw() == book, "{opcode:02X}");
    }
}

/// Both books fresh, with any fee and a shut date.
fn opened(rng: &mut Rng, id: [u8; 16]) -> (Book, oracle::Book) {
    let fee = rng.pick(&[0, 1, 250, 999, 1_000]);
    let year = 1970 + rng.below(430) as u32;
    let dates = [Date::new(year, 5, 1)];
    let settings = Settings::default().with_fee(fee).with_dates(&dates);
    let library = Book::open_with(&id, &settings).unwrap();
    let (month, day) = (5, 1);
    let dates = [oracle::Date { year, month, day }];
    let mut oracle = oracle::Book::fresh(id);
    assert_eq!(oracle.open_with(&id, PLAIN_DEFAULT, fee, Some(&dates)), 0);
    (library, oracle)
}

/// A life of one channel of a fresh book, at any time.
fn live(rng: &mut Rng, wallet: &mut Wallet, life: &[u8]) {
    let n = rng.below(64);
    let id = rng.array();
    let terms = Terms::new(rng, wallet, id, n as u16, life);
    let (library, oracle) = opened(rng, id);
    let mut desk = Desk {
        wallet,
        library,
        oracle,
    };
    desk.file(&terms, 1, rng.number() % (1 << 62));
    for opcode in life {
        let deadline = desk.oracle.channels[n].deadline;
        desk.file(&terms, *opcode, deadline);
    }
    let reading = desk.library.read(n).unwrap();
    assert_eq!(reading.status, finaruvom::Status::Closed);
    assert_eq!(reading.total.0, terms.total());
}

#[test]
fn lives_of_channels() {
    let rng = &mut Rng::new(2);
    let mut wallet = Wallet::default();
    for life in [lives(), lives()].concat() {
        live(rng, &mut wallet, &life);
    }
}
