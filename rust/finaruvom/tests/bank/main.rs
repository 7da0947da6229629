//! Payments collected, written and read.
mod collecting;
mod given;
mod reading;
mod writing;

use finaruvom::bank::{Payee, Payment};
use finaruvom::Cents;

/// What stands in a lent list before a call.
const FORMER: Payment = Payment {
    party: Payee::Merchant,
    channel: u64::MAX,
    amount: Cents(0xee),
};

fn payment(party: Payee, channel: u64, cents: u64) -> Payment {
    Payment {
        party,
        channel,
        amount: Cents(cents),
    }
}
