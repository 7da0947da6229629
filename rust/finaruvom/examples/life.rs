//! The life of three channels between a café, the customer, and a bakery, the merchant, with real
//! signatures, a fee and a day on which the bank is shut. It prints an account, and asserts what it
//! prints.
use finaruvom::command::{
    CustomerClose, Dispute, Establish, FundCustomer, FundMerchant, MutualClose, SetClock, Settle,
    Signatures,
};
use finaruvom::{
    hash, Book, Cents, Date, Payments, Refusal, Seconds, Settings, Status, ID_SIZE, SIGNATURE_SIZE,
};
use oracle::{digest, Signer};

const ID: [u8; ID_SIZE] = *b"corner desk 2026";
/// Monday, 6 July 2026, eight o'clock.
const MORNING: u64 = 1_783_324_800;
const HOUR: u64 = 3_600;
/// What the desk keeps of each payment to the bakery, in ten-thousandths: a fortieth.
const FEE: u32 = 250;
/// The bank is shut on the Wednesday of that week, and on Saturdays and Sundays.
const SHUT: [Date; 1] = [Date::new(2026, 7, 8)];
/// The deadline of what is closed on Monday with two days to answer: Thursday, 00:00:00.
const DEADLINE: Seconds = Seconds(MORNING + 64 * HOUR);

/// A till with its key. Each leaf of the key signs once.
struct Till {
    signer: Signer,
    next_leaf: u32,
}

impl Till {
    /// A key with four leaves: a whole one has 1,024 and takes longer to make.
    fn new(number: u8) -> Till {
        Till {
            signer: Signer::with_leaves([number; 32], [number; 16], &[0, 1, 2, 3]),
            next_leaf: 0,
        }
    }

    /// The signature of a message by the next leaf. A till takes the string C at random.
    fn sign(&mut self, message: &[u8]) -> [u8; SIGNATURE_SIZE] {
        let leaf = self.next_leaf;
        self.next_leaf += 1;
        self.signer.sign(leaf, &digest(message), message)
    }
}

/// The desk's book, the two tills, and what was paid so far.
struct Desk {
    book: Book,
    cafe: Till,
    bakery: Till,
    paid: Payments,
}

impl Desk {
    fn new() -> Result<Desk, Refusal> {
        Ok(Desk {
            book: Book::open_with(&ID, &Settings::desk().with_fee(FEE).with_dates(&SHUT))?,
            cafe: Till::new(1),
            bakery: Till::new(2),
            paid: Payments::default(),
        })
    }

    /// Files a command, pays what it pays and tells of it.
    fn file(&mut self, what: &str, command: &[u8]) -> Result<Payments, Refusal> {
        let paid = self.book.apply(command).paid()?;
        let Payments {
            customer,
            merchant,
            fee,
        } = paid;
        self.paid.customer = sum(self.paid.customer, customer);
        self.paid.merchant = sum(self.paid.merchant, merchant);
        self.paid.fee = sum(self.paid.fee, fee);
        print!("{what}");
        for (cents, side) in [(customer, "café"), (merchant, "bakery"), (fee, "desk")] {
            if cents > Cents(0) {
                print!(", {cents} to the {side}");
            }
        }
        println!();
        Ok(paid)
    }

    /// Sets the clock to so many hours after the morning.
    fn at(&mut self, hours: u64) -> Result<(), Refusal> {
        let time = Seconds(MORNING + hours * HOUR);
        let paid = self.file(&format!("hour {hours}"), &SetClock { time }.command())?;
        assert_eq!((paid, self.book.clock()), (Payments::default(), time));
        Ok(())
    }

    /// A channel with 900 of the café and 100 of the bakery, open. Its delay is the book's default,
    /// two days.
    fn open_channel(&mut self, channel: u16) -> Result<(), Refusal> {
        let establish = Establish {
            channel,
            customer_key: self.cafe.signer.key(),
            merchant_key: self.bakery.signer.key(),
            customer: Cents(900),
            merchant: Cents(100),
            delay: 0,
        };
        let cafe = FundCustomer {
            channel,
            amount: Cents(900),
        };
        let bakery = FundMerchant {
            channel,
            amount: Cents(100),
        };
        let commands = [
            ("established", &establish.command()[..]),
            ("funded by the café", &cafe.command()),
            ("funded by the bakery", &bakery.command()),
        ];
        for (what, command) in commands {
            let paid = self.file(&format!("channel {channel} {what}"), command)?;
            assert_eq!(paid, Payments::default());
        }
        self.tell(channel, Status::Open, 1_000)
    }

    /// The café closes a channel with 700 for itself, a balance that the bakery had signed; of the
    /// bakery's 300 the desk keeps 7.
    fn cafe_closes(&mut self, channel: u16, secret: &[u8; 32]) -> Result<(), Refusal> {
        let close = CustomerClose {
            channel,
            lock: hash(secret)?,
            customer: Cents(700),
            merchant: Cents(300),
        };
        let message = close.message(self.book.id());
        let command = close.command(Signatures {
            merchant: &self.bakery.sign(&message),
            customer: &self.cafe.sign(&message),
        });
        let paid = self.file(&format!("channel {channel} closed by the café"), &command)?;
        assert_eq!(paid, payments(0, 293, 7));
        let deadline = self.book.read(usize::from(channel))?.deadline;
        assert_eq!(deadline, DEADLINE);
        if let Some(date) = deadline.date() {
            println!("    to be answered before {}, {date}", deadline.weekday());
        }
        self.tell(channel, Status::CustomerClosing, 700)
    }

    /// Tells what a channel holds.
    fn tell(&self, channel: u16, status: Status, held: u64) -> Result<(), Refusal> {
        let reading = self.book.read(usize::from(channel))?;
        assert_eq!((reading.status, reading.held), (status, Cents(held)));
        println!("    channel {channel}: {status}, holds {held}");
        Ok(())
    }
}

fn payments(customer: u64, merchant: u64, fee: u64) -> Payments {
    Payments {
        customer: Cents(customer),
        merchant: Cents(merchant),
        fee: Cents(fee),
    }
}

fn sum(paid: Cents, more: Cents) -> Cents {
    paid.checked_add(more).expect("deposits are small")
}

/// Channel 0: the café closes with an old balance. The bakery has its secret and disputes in time.
/// Its two payments have two fees, 7 of 300 and 17 of 700.
fn disputed(desk: &mut Desk) -> Result<(), Refusal> {
    let secret = [0x5e; 32];
    desk.open_channel(0)?;
    desk.cafe_closes(0, &secret)?;
    assert_eq!(desk.book.due(), Some(0));
    desk.at(1)?;
    let dispute = Dispute { channel: 0, secret };
    let signature = desk.bakery.sign(&dispute.message(desk.book.id()));
    let paid = desk.file("channel 0 disputed", &dispute.command(&signature))?;
    assert_eq!(paid, payments(0, 683, 17));
    desk.tell(0, Status::Closed, 0)
}

/// Channel 1: both close it.
fn mutual(desk: &mut Desk) -> Result<(), Refusal> {
    desk.open_channel(1)?;
    let close = MutualClose {
        channel: 1,
        customer: Cents(400),
        merchant: Cents(600),
    };
    let message = close.message(desk.book.id());
    let command = close.command(Signatures {
        merchant: &desk.bakery.sign(&message),
        customer: &desk.cafe.sign(&message),
    });
    let paid = desk.file("channel 1 closed by both", &command)?;
    assert_eq!(paid, payments(400, 585, 15));
    desk.tell(1, Status::Closed, 0)
}

/// Channel 2: the café closes with the last balance. The bakery has nothing to show against it, and
/// the channel is settled at the deadline.
fn settled(desk: &mut Desk) -> Result<(), Refusal> {
    desk.open_channel(2)?;
    desk.cafe_closes(2, &[0x7a; 32])?;
    let settle = Settle { channel: 2 }.command();
    restored(desk)?;
    // After two days the bank is shut.
    for hour in [1, 49, 63] {
        desk.at(hour)?;
        let early = desk.file("channel 2 settled", &settle).unwrap_err();
        assert_eq!(early, Refusal::Deadline);
        println!("channel 2 not settled yet: {early}");
    }
    desk.at(64)?;
    assert_eq!(desk.book.due(), Some(2));
    assert_eq!(desk.book.read(2)?.deadline, desk.book.clock());
    let paid = desk.file("channel 2 settled", &settle)?;
    assert_eq!(paid, payments(700, 0, 0));
    assert_eq!(desk.book.due(), None);
    desk.tell(2, Status::Closed, 0)
}

/// The desk stores its book and goes on with what was stored.
fn restored(desk: &mut Desk) -> Result<(), Refusal> {
    let stored = desk.book.as_bytes().to_vec();
    let book = Book::from_bytes(&stored)?;
    assert_eq!(book, desk.book);
    desk.book = book;
    println!("book stored and restored: {} bytes", stored.len());
    Ok(())
}

fn main() -> Result<(), Refusal> {
    let mut desk = Desk::new()?;
    desk.at(0)?;
    disputed(&mut desk)?;
    mutual(&mut desk)?;
    settled(&mut desk)?;

    // Three channels of 1,000: what was paid in is paid out.
    let Payments {
        customer,
        merchant,
        fee,
    } = desk.paid;
    assert_eq!(desk.paid, payments(1_100, 1_854, 46));
    println!("paid in all: {customer} to the café, {merchant} to the bakery, {fee} to the desk");
    Ok(())
}
