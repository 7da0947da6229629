//! What went in and out of each channel of a book, by its rate, its commands and their answers alone.
use crate::pair::Outcome;
use finaruvom::Book;
use oracle::{Answer, Command, Order, CHANNELS};

/// What one channel agreed, took in and paid. Of two numbers the first is the customer's.
#[derive(Clone, Copy, Default)]
struct Account {
    /// The deposits of its 02.
    agreed: [u128; 2],
    /// c and b of its 06 or 07.
    parts: Option<[u128; 2]>,
    deposits: u128,
    /// Paid to the customer, and to the merchant with the fees.
    paid: [u128; 2],
}

/// The accounts of every channel, and the rate of the fee.
pub struct Ledger {
    rate: u32,
    accounts: [Account; CHANNELS],
}

impl Account {
    /// Enters an accepted command.
    fn enter(&mut self, order: Order, answer: &Answer) {
        match order {
            Order::Establish {
                customer_deposit,
                merchant_deposit,
                ..
            } => self.agreed = [customer_deposit, merchant_deposit].map(u128::from),
            Order::CustomerFunds { cents } | Order::MerchantFunds { cents } => {
                self.deposits += u128::from(cents);
            }
            Order::MutualClose { customer, merchant }
            | Order::CustomerCloses {
                customer, merchant, ..
            } => self.parts = Some([customer, merchant].map(u128::from)),
            _ => {}
        }
        self.paid[0] += u128::from(answer.customer);
        self.paid[1] += u128::from(answer.merchant) + u128::from(answer.fee);
    }

    /// What the paper says that the channel has paid, where this command closed it.
    fn split(&self, order: Order) -> Option<[u128; 2]> {
        let [customer, merchant] = self.agreed;
        let total = [0, customer + merchant];
        match order {
            Order::Reclaim => Some([customer, 0]),
            Order::Dispute { .. } => Some(total),
            Order::MutualClose { .. } | Order::Settle => Some(self.parts.unwrap_or(total)),
            _ => None,
        }
    }
}

impl Ledger {
    /// The ledger of a fresh book of this rate.
    pub fn new(rate: u32) -> Ledger {
        Ledger {
            rate,
            accounts: [Account::default(); CHANNELS],
        }
    }

    /// Enters a command that was accepted, and asks whether its payment is divided by the rate, the
    /// channel that it closed is split, and the book is balanced after it.
    pub fn enter(&mut self, command: &[u8], answer: &Answer, book: &Book) -> Outcome {
        divided(self.rate, answer)?;
        let Ok(command) = Command::parse(command) else {
            return Err("no command of whole length".to_string());
        };
        if let Some(n) = command.channel {
            let account = &mut self.accounts[usize::from(n)];
            account.enter(command.order, answer);
            let [customer, merchant] = account.paid;
            if let Some(split) = account
                .split(command.order)
                .filter(|it| *it != account.paid)
            {
                let text = format!("channel {n} paid {customer} and {merchant}, not {split:?}");
                return Err(text);
            }
        }
        self.balanced(book)
    }

    /// Whether what each channel holds and what it paid, the fees included, are together its
    /// deposits.
    fn balanced(&self, book: &Book) -> Outcome {
        for (n, account) in self.accounts.iter().enumerate() {
            let reading = book.read(n).map_err(|refusal| refusal.to_string())?;
            let held = u128::from(reading.held.0);
            let deposits = account.deposits;
            let paid: u128 = account.paid.iter().sum();
            if held + paid != deposits {
                let text = format!("channel {n} holds {held} and paid {paid} of {deposits}");
                return Err(text);
            }
        }
        Ok(())
    }
}

/// Whether the fee is the whole part of what the rate makes of it and the merchant's payment
/// together.
pub fn divided(rate: u32, answer: &Answer) -> Outcome {
    let [merchant, fee] = [answer.merchant, answer.fee].map(u128::from);
    let product = (merchant + fee) * u128::from(rate);
    match product.checked_sub(10_000 * fee) {
        Some(0..10_000) => Ok(()),
        _ => Err(format!(
            "a fee of {fee} beside {merchant} at a rate of {rate}"
        )),
    }
}

#[cfg(test)]
mod tests {
    use super::*;

    /// A book in which no channel holds anything.
    fn empty() -> Book {
        Book::open(&[0; 16]).unwrap()
    }

    fn answer(customer: u64, merchant: u64, fee: u64) -> Answer {
        Answer {
            customer,
            merchant,
            fee,
            ..Answer::default()
        }
    }

    /// A command to channel 5 with these numbers behind n, keys or lock, and zeros for the rest.
    fn command(opcode: u8, numbers: &[u64]) -> Vec<u8> {
        let mut bytes = vec![0; oracle::length(opcode).unwrap()];
        (bytes[0], bytes[2]) = (opcode, 5);
        let start = match opcode {
            0x02 => 115,
            0x07 => 35,
            _ => 3,
        };
        for (place, number) in bytes[start..].chunks_mut(8).zip(numbers) {
            place.copy_from_slice(&number.to_be_bytes());
        }
        bytes
    }

    /// What the ledger says of the last of some commands.
    fn entered(rate: u32, commands: &[(Vec<u8>, Answer)]) -> Outcome {
        let (mut ledger, mut last) = (Ledger::new(rate), Ok(()));
        for (command, answer) in commands {
            last = ledger.enter(command, answer, &empty());
        }
        last
    }

    /// A book that holds nothing of a funding, or has not paid what was answered.
    #[test]
    fn unbalanced() {
        let enter = |rate, command, answer| entered(rate, &[(command, answer)]);
        let funded = |rate, answer| enter(rate, command(0x04, &[100]), answer);
        let kept = funded(0, answer(0, 0, 0));
        assert_eq!(kept.unwrap_err(), "channel 5 holds 0 and paid 0 of 100");
        let told = enter(0, command(0x08, &[]), answer(0, 100, 0));
        assert_eq!(told.unwrap_err(), "channel 5 holds 0 and paid 100 of 0");
        assert_eq!(funded(0, answer(0, 100, 0)), Ok(()));
        assert_eq!(funded(1_000, answer(0, 90, 10)), Ok(()));
        // The fee came on top of the merchant's payment, or out of the customer's.
        let on_top = funded(1_000, answer(0, 100, 11));
        assert_eq!(on_top.unwrap_err(), "channel 5 holds 0 and paid 111 of 100");
        let less = funded(1_000, answer(90, 0, 0));
        assert_eq!(less.unwrap_err(), "channel 5 holds 0 and paid 90 of 100");
    }

    /// Fees that are a cent too high or too low, or taken at another rate.
    #[test]
    fn undivided() {
        assert_eq!(divided(250, &answer(700, 293, 7)), Ok(()));
        for (rate, merchant, fee) in [(250, 292, 8), (250, 294, 6), (1_000, 8, 1), (0, 99, 1)] {
            let text = format!("a fee of {fee} beside {merchant} at a rate of {rate}");
            assert_eq!(divided(rate, &answer(0, merchant, fee)), Err(text));
        }
        let whole = entered(250, &[(command(0x04, &[300]), answer(0, 300, 0))]);
        assert_eq!(whole.unwrap_err(), "a fee of 0 beside 300 at a rate of 250");
    }

    /// What the ledger says of a channel that agreed on 900 and 100, took in what it then paid, and
    /// closed with these commands.
    fn closed(commands: &[(Vec<u8>, Answer)]) -> Outcome {
        let sum = |(_, paid): &(_, Answer)| paid.customer + paid.merchant + paid.fee;
        let funding = command(0x03, &[commands.iter().map(sum).sum()]);
        let begun = [command(0x02, &[900, 100]), funding].map(|it| (it, answer(0, 0, 0)));
        entered(1_000, &[&begun, commands].concat())
    }

    /// The splits of the paper, and others that the balance does not tell from them. The customer
    /// closes with 700 and 300, and so do both.
    #[test]
    fn split() {
        let close = (command(0x07, &[700, 300]), answer(0, 270, 30));
        let mutual = |paid| closed(&[(command(0x06, &[700, 300]), paid)]);
        let alone = |opcode, paid| closed(&[(command(opcode, &[]), paid)]);
        let after = |opcode, paid| closed(&[close.clone(), (command(opcode, &[]), paid)]);
        assert_eq!(alone(0x05, answer(900, 0, 0)), Ok(()));
        assert_eq!(mutual(answer(700, 270, 30)), Ok(()));
        assert_eq!(after(0x09, answer(0, 630, 70)), Ok(()));
        assert_eq!(after(0x0a, answer(700, 0, 0)), Ok(()));
        assert_eq!(alone(0x0a, answer(0, 900, 100)), Ok(()));
        for (outcome, text) in [
            (alone(0x05, answer(0, 810, 90)), "0 and 900, not [900, 0]"),
            (mutual(answer(730, 243, 27)), "730 and 270, not [700, 300]"),
            (after(0x09, answer(700, 0, 0)), "700 and 300, not [0, 1000]"),
            (
                after(0x0a, answer(0, 630, 70)),
                "0 and 1000, not [700, 300]",
            ),
            (
                alone(0x0a, answer(100, 810, 90)),
                "100 and 900, not [0, 1000]",
            ),
        ] {
            assert_eq!(outcome, Err(format!("channel 5 paid {text}")));
        }
    }
}
