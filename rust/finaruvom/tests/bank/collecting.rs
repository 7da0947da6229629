//! Collecting from the lines of a run.
use crate::{payment, FORMER};
use finaruvom::bank::{collect, Payee, Payment};
use finaruvom::command::{CustomerClose, Establish, FundCustomer, FundMerchant, MutualClose};
use finaruvom::command::{SetClock, Settle, Signatures};
use finaruvom::{hash, Book, Cents, Line, Refusal, Seconds, Settings, SIGNATURE_SIZE};
use oracle::Signer;

const ID: [u8; 16] = *b"the book's id 01";

/// A desk's journal, and the two who sign.
struct Journal {
    customer: Signer,
    merchant: Signer,
    bytes: Vec<u8>,
}

impl Journal {
    /// Channels 3 and 63, each opened with 900 and 100.
    fn new() -> Journal {
        let [customer, merchant] =
            [1, 2].map(|byte| Signer::with_leaves([byte; 32], [byte; 16], &[0, 1]));
        let mut journal = Journal {
            customer,
            merchant,
            bytes: Vec::new(),
        };
        journal.open(3);
        journal.open(63);
        journal
    }

    fn open(&mut self, channel: u16) {
        let establish = Establish {
            channel,
            customer_key: self.customer.key(),
            merchant_key: self.merchant.key(),
            customer: Cents(900),
            merchant: Cents(100),
            delay: 3_600,
        };
        self.bytes.extend(establish.command());
        let amount = Cents(900);
        self.bytes
            .extend(FundCustomer { channel, amount }.command());
        let amount = Cents(100);
        self.bytes
            .extend(FundMerchant { channel, amount }.command());
    }

    /// What merchant and customer sign with this leaf.
    fn signed(&self, leaf: u32, message: &[u8]) -> [[u8; SIGNATURE_SIZE]; 2] {
        [&self.merchant, &self.customer].map(|signer| signer.sign(leaf, &[7; 32], message))
    }
}

/// Both close channel 3 with 400 and 600; the customer closes 63 with 700 and 300, and settles it,
/// before the deadline and at it.
fn journal() -> Vec<u8> {
    let mut journal = Journal::new();
    let mutual = MutualClose {
        channel: 3,
        customer: Cents(400),
        merchant: Cents(600),
    };
    let [merchant, customer] = &journal.signed(0, &mutual.message(&ID));
    let mutual = mutual.command(Signatures { merchant, customer });
    let close = CustomerClose {
        channel: 63,
        lock: hash(&[0x5e; 32]).unwrap(),
        customer: Cents(700),
        merchant: Cents(300),
    };
    let [merchant, customer] = &journal.signed(1, &close.message(&ID));
    let close = close.command(Signatures { merchant, customer });
    let settle = Settle { channel: 63 }.command();
    let time = Seconds(3_600);
    let clock = SetClock { time }.command();
    let ending = [&mutual[..], &close, &settle, &clock, &settle].concat();
    journal.bytes.extend(ending);
    journal.bytes
}

/// What the journal pays.
fn paid() -> [Payment; 4] {
    [
        payment(Payee::Customer, 3, 400),
        payment(Payee::Merchant, 3, 600),
        payment(Payee::Merchant, 63, 300),
        payment(Payee::Customer, 63, 700),
    ]
}

/// The journal and its lines in a book with this fee; one more line than it has commands.
fn ran(fee: u32) -> (Vec<u8>, [Line; 12]) {
    let journal = journal();
    let mut lines = [Line::default(); 12];
    let mut book = Book::open_with(&ID, &Settings::default().with_fee(fee)).unwrap();
    assert_eq!(book.run(&journal, &mut lines).lines, 11);
    assert_eq!(lines[8].answer.refused(), Some(Refusal::Deadline));
    // Behind the last command nothing is collected, whatever stands there.
    lines[11] = lines[6];
    (journal, lines)
}

#[test]
fn lists() {
    let (journal, lines) = ran(0);
    for room in 0..4 {
        let mut list = vec![FORMER; room];
        assert_eq!(collect(&journal, &lines, &mut list), Err(Refusal::Room));
        assert_eq!(list, vec![FORMER; room]);
    }
    for room in [4, 5, 24] {
        let mut list = vec![FORMER; room];
        assert_eq!(collect(&journal, &lines, &mut list), Ok(4));
        assert_eq!(list[..4], paid());
        assert_eq!(list[4..], vec![FORMER; room - 4]);
    }
}

/// The merchant's payments without their fees, which are nobody's; the customer's whole.
#[test]
fn without_the_fee() {
    for (fee, [mutual, close]) in [(250, [15, 7]), (1, [0, 0]), (1_000, [60, 30])] {
        let (journal, lines) = ran(fee);
        let fees = [6, 7].map(|at| lines[at].answer.as_raw().fee);
        assert_eq!(fees, [Cents(mutual), Cents(close)]);
        let mut expected = paid();
        expected[1].amount.0 -= mutual;
        expected[2].amount.0 -= close;
        let mut list = [FORMER; 5];
        assert_eq!(collect(&journal, &lines, &mut list), Ok(4));
        assert_eq!(list[..4], expected);
        assert_eq!(list[4], FORMER);
    }
}

/// It ends where the run would.
#[test]
fn ends() {
    let (journal, lines) = ran(0);
    let collected = |journal: &[u8], count: usize| {
        let mut list = [FORMER; 8];
        let count = collect(journal, &lines[..count], &mut list).unwrap();
        list[..count].to_vec()
    };
    let whole = journal.len();
    assert_eq!(collected(&journal, 11), paid());
    assert_eq!(collected(&journal, 10), paid()[..3]);
    assert_eq!(collected(&journal, 7), paid()[..2]);
    assert_eq!(collected(&journal, 6), []);
    assert_eq!(collected(&journal, 0), []);
    assert_eq!(collected(&journal[..whole - 1], 11), paid()[..3]);
    assert_eq!(collected(&journal[..whole - 16], 12), paid()[..2]);
    assert_eq!(collected(&[&journal[..], &[0x0b]].concat(), 12), paid());
    assert_eq!(collected(&[&[0x0b], &journal[..]].concat(), 12), []);
    assert_eq!(collected(&[], 12), []);
}

/// Lines are taken as they stand, beside other commands too: 01 is passed over, and n is the
/// command's own.
#[test]
fn lines_beside_other_commands() {
    let (_, lines) = ran(0);
    let paying = [lines[6]; 3];
    let settle = |channel| Settle { channel }.command();
    let clock = SetClock { time: Seconds(0) }.command();
    let commands = [&settle(64)[..], &clock, &settle(65_535)].concat();
    let mut list = [FORMER; 5];
    assert_eq!(collect(&commands, &paying, &mut list), Ok(4));
    let expected = [
        payment(Payee::Customer, 64, 400),
        payment(Payee::Merchant, 64, 600),
        payment(Payee::Customer, 65_535, 400),
        payment(Payee::Merchant, 65_535, 600),
        FORMER,
    ];
    assert_eq!(list, expected);
}

#[test]
fn nothing() {
    assert_eq!(collect(&[], &[], &mut []), Ok(0));
    let settle = Settle { channel: 3 }.command();
    assert_eq!(collect(&settle, &[], &mut []), Ok(0));
    assert_eq!(collect(&settle, &[Line::default(); 2], &mut []), Ok(0));
}
