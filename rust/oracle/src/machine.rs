//! A command on a book: checks, then what it changes and pays. A delay of 0 is read as document 02
//! No. 1 has it, a customer who deposits nothing as its No. 2, a leaf that is used again as its
//! No. 5; a payment to the merchant is divided as its No. 7 has it, a deadline moved as its No. 8.
use crate::book::{Book, Channel, Party};
use crate::check::check;
use crate::command::{Command, Order};
use crate::fee::fee;
use crate::rules::{self, named};

/// What a command answers.
#[derive(Clone, Copy, Debug, Default, PartialEq, Eq)]
pub struct Answer {
    /// The refusal's number, or 0.
    pub refusal: u8,
    /// Cents paid to the customer.
    pub customer: u64,
    /// Cents paid to the merchant, without the fee.
    pub merchant: u64,
    /// Chain steps of the signature checks made.
    pub steps: u32,
    /// Cents that the desk keeps of the payment to the merchant.
    pub fee: u64,
}

/// Carries a command out, or refuses it.
pub fn apply(book: &mut Book, bytes: &[u8]) -> Answer {
    let mut steps = 0;
    match accepted(book, bytes, &mut steps) {
        Ok((command, leaf)) => {
            let (customer, amount) = carry_out(book, &command, leaf);
            let fee = fee(amount, book.rate);
            Answer {
                refusal: 0,
                customer,
                merchant: amount - fee,
                steps,
                fee,
            }
        }
        Err(refusal) => Answer {
            refusal,
            steps,
            ..Answer::default()
        },
    }
}

/// A command, and the leaf of the merchant's signature where it has one.
type Signed<'a> = (Command<'a>, Option<u32>);

/// The command if every check says yes, else the refusal; counts the chain steps.
fn accepted<'a>(book: &Book, bytes: &'a [u8], steps: &mut u32) -> Result<Signed<'a>, u8> {
    if !book.sound() {
        return Err(99);
    }
    let command = Command::parse(bytes)?;
    if let Some(refusal) = rules::noes(book, &command).next() {
        return Err(refusal);
    }
    let Some(channel) = named(book, &command) else {
        return Ok((command, None));
    };
    let message = command.message(&book.id);
    let mut signed = |party: &Party, signature: Option<&[u8]>, refusal| {
        let Some(signature) = signature else {
            return Ok(None);
        };
        let verdict = check(&party.key, &message, signature);
        *steps += verdict.steps;
        match verdict.good {
            true => Ok(Some(verdict.leaf)),
            false => Err(refusal),
        }
    };
    let leaf = signed(&channel.merchant, command.merchant_signature(), 11)?;
    signed(&channel.customer, command.customer_signature(), 12)?;
    match (command.order, leaf) {
        (Order::Dispute { .. }, Some(leaf)) if channel.remembered.has(leaf) => Err(16),
        _ => Ok((command, leaf)),
    }
}

/// The checks 3 to 10 that say no to a command of whole length on a sound book, in their order.
pub fn noes(book: &Book, bytes: &[u8]) -> Vec<u8> {
    match Command::parse(bytes) {
        Ok(command) if book.sound() => rules::noes(book, &command).collect(),
        _ => Vec::new(),
    }
}

/// Changes the book and gives what is paid to customer and merchant, the fee included; `leaf` is
/// that of the merchant's signature.
fn carry_out(book: &mut Book, command: &Command, leaf: Option<u32>) -> (u64, u64) {
    if let Order::Clock { time } = command.order {
        book.clock = time;
    }
    let Some(n) = command.channel else {
        return (0, 0);
    };
    let channel = &mut book.channels[usize::from(n)];
    let paid = payment(channel, command.order);
    let status = next_status(channel, command.order);
    let deadline = book.shut.moved(book.clock + u64::from(channel.delay));
    store(channel, deadline, book.default_delay, command.order);
    remember(channel, command.order, leaf);
    channel.status = status;
    paid
}

/// What a command pays to customer and merchant, the fee included.
fn payment(channel: &Channel, order: Order) -> (u64, u64) {
    match (order, channel.status) {
        (Order::Reclaim, _) => (channel.customer.deposit, 0),
        (Order::MutualClose { customer, merchant }, _) => (customer, merchant),
        (Order::CustomerCloses { merchant, .. }, _) => (0, merchant),
        (Order::Dispute { .. }, _) => (0, channel.kept),
        (Order::Settle, 4) => (0, channel.customer.deposit + channel.merchant.deposit),
        (Order::Settle, _) => (channel.kept, 0),
        _ => (0, 0),
    }
}

/// The channel's status after a command.
fn next_status(channel: &Channel, order: Order) -> u8 {
    match order {
        Order::Clock { .. } => channel.status,
        Order::Establish {
            customer_deposit: 0,
            ..
        } => 2,
        Order::Establish { .. } => 1,
        Order::CustomerFunds { .. } if channel.merchant.deposit > 0 => 2,
        Order::CustomerFunds { .. } | Order::MerchantFunds { .. } => 3,
        Order::MerchantCloses => 4,
        Order::CustomerCloses { .. } => 5,
        Order::Reclaim | Order::MutualClose { .. } | Order::Dispute { .. } | Order::Settle => 6,
    }
}

/// Stores the values that a command sets beside the status; `deadline` is that of a closing, and
/// the rule for a delay of 0 reads the book's default.
fn store(channel: &mut Channel, deadline: u64, default_delay: u32, order: Order) {
    match order {
        Order::Establish {
            customer,
            merchant,
            customer_deposit,
            merchant_deposit,
            delay,
        } => {
            channel.customer = Party {
                key: *customer,
                deposit: customer_deposit,
            };
            channel.merchant = Party {
                key: *merchant,
                deposit: merchant_deposit,
            };
            channel.delay = if delay == 0 { default_delay } else { delay };
        }
        Order::CustomerCloses { lock, customer, .. } => {
            channel.lock = *lock;
            channel.kept = customer;
            channel.deadline = deadline;
        }
        Order::MerchantCloses => channel.deadline = deadline,
        _ => {}
    }
}

/// Remembers the leaf of the merchant's signature in an 08 or 07.
fn remember(channel: &mut Channel, order: Order, leaf: Option<u32>) {
    match order {
        Order::MerchantCloses => channel.remembered.in_08 = leaf,
        Order::CustomerCloses { .. } => channel.remembered.in_07 = leaf,
        _ => {}
    }
}
