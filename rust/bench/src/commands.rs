//! Commands on a book with all channels in use.
use crate::timing::{best, row};
use differential::bridge::to_oracle;
use differential::plan::{Hand, Plan};
use differential::wallet::Wallet;
use finaruvom::raw::{Channel, Leaves, Party};
use finaruvom::{Book, Cents, Date, Seconds, Settings, MOST_DATES};
use oracle::digest;

const ID: [u8; 16] = [9; 16];
const CLOCK: u64 = 1_000;
/// The channel that the commands name, the last one to be looked at.
const N: u16 = 63;
/// The kinds of command, each with the status and the deadline of its channel.
const ROWS: [(u8, u32, u64); 11] = [
    (0x01, 3, 0),
    (0x02, 0, 0),
    (0x03, 1, 0),
    (0x04, 2, 0),
    (0x05, 2, 0),
    (0x06, 3, 0),
    (0x07, 3, 0),
    (0x08, 3, 0),
    (0x09, 5, CLOCK + 1),
    (0x0a, 4, CLOCK),
    (0x0a, 5, CLOCK),
];

/// Times each kind of command accepted, and two refusals.
pub fn commands() {
    let mut wallet = Wallet::default();
    for (opcode, status, deadline) in ROWS {
        let book = book(&wallet, status, deadline);
        let command = command(&mut wallet, opcode);
        assert_eq!(book.clone().apply(&command).refused(), None);
        time(
            &format!("{opcode:02X} accepted in status {status}"),
            &book,
            &command,
        );
    }
    shut_dates(&mut wallet);
    let settle = command(&mut wallet, 0x0a);
    time("0A refused with 5", &book(&wallet, 3, 0), &settle);
    time("0A refused with 99", &book(&wallet, 7, 0), &settle);
    due(&book(&wallet, 5, CLOCK + 3_600));
}

/// Times what is due of a book whose channels are all closing, with one deadline and sum.
fn due(book: &Book) {
    let same = to_oracle(book.as_raw());
    assert_eq!((book.due(), oracle::due(&same)), (Some(0), Some(0)));
    let library = best(|| (), |()| book.due());
    let oracle = best(|| (), |()| oracle::due(&same));
    row("due, 64 equal closings", library, oracle);
}

/// Times closings whose deadline falls on the first of 64 shut dates in a row, and a settling in such
/// a book.
fn shut_dates(wallet: &mut Wallet) {
    let midnights = (0..).step_by(86_400).map(Seconds);
    let dates: Vec<Date> = midnights
        .map_while(Seconds::date)
        .take(MOST_DATES)
        .collect();
    let settings = Settings::default().with_fee(250).with_dates(&dates);
    for (opcode, status, deadline) in [(0x07, 3, 0), (0x08, 3, 0), (0x0a, 4, CLOCK)] {
        let book = book_with(&settings, wallet, status, deadline);
        let command = command(wallet, opcode);
        let mut after = book.clone();
        assert_eq!(after.apply(&command).refused(), None);
        let moved = if status == 3 { 64 * 86_400 } else { deadline };
        assert_eq!(after.as_raw().channels[usize::from(N)].deadline.0, moved);
        let name = format!("{opcode:02X} accepted in status {status}, 64 shut dates");
        time(&name, &book, &command);
    }
}

fn time(name: &str, book: &Book, command: &[u8]) {
    let same = to_oracle(book.as_raw());
    let library = best(|| book.clone(), |book| book.apply(command));
    let oracle = best(|| same.clone(), |book| oracle::apply(book, command));
    row(name, library, oracle);
}

/// A book with a fee whose channels are closing, but for the one named.
pub fn book(wallet: &Wallet, status: u32, deadline: u64) -> Book {
    book_with(&Settings::default().with_fee(250), wallet, status, deadline)
}

/// The same with these settings.
fn book_with(settings: &Settings, wallet: &Wallet, status: u32, deadline: u64) -> Book {
    let party = |party, deposit| Party {
        key: wallet.key(party),
        deposit: Cents(deposit),
    };
    let closing = Channel {
        status: 5,
        customer: party(0, 900),
        merchant: party(1, 100),
        delay: 3_600,
        deadline: Seconds(CLOCK + 3_600),
        kept: Cents(700),
        lock: digest(&wallet.secrets()[0]),
        leaves: Leaves {
            first: 7,
            second: 9,
        },
    };
    let opened = Book::open_with(&ID, settings).expect("an opening");
    let mut raw = opened.as_raw().clone();
    raw.clock = Seconds(CLOCK);
    raw.channels = [closing; 64];
    let named = &mut raw.channels[usize::from(N)];
    (named.status, named.deadline) = (status, Seconds(deadline));
    Book::from_raw(raw)
}

/// A command of this kind that the book accepts.
fn command(wallet: &mut Wallet, opcode: u8) -> Vec<u8> {
    let numbers = match opcode {
        0x01 => [CLOCK, 0],
        0x04 => [100, 0],
        0x06 | 0x07 => [400, 600],
        _ => [900, 100],
    };
    let secret = wallet.secrets()[0];
    // A leaf that no channel remembers.
    let merchant = Hand {
        party: 1,
        leaf: Some(8),
    };
    let plan = Plan {
        opcode,
        n: N,
        numbers,
        keys: [0, 1].map(|party| wallet.key(party)),
        delay: 3_600,
        string: secret,
        signers: [merchant, 0.into()],
        signed: (opcode, ID, N),
    };
    plan.write(|hand, message| wallet.sign(hand, message))
}
