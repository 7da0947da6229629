//! The checks 3 to 10 of document 01, each true where it doesn't apply to the command; the deposits
//! of 02 as document 02 No. 2 has them.
use crate::book::{Book, Channel, CHANNELS, DELAYS, LARGEST};
use crate::check::TYPES;
use crate::command::{Command, Order};
use crate::sha256::digest;

type Check = fn(&Book, &Command) -> bool;

/// The checks in their order, by the refusal that each gives.
const CHECKS: [(u8, Check); 8] = [
    (3, time_fits),
    (4, channel_exists),
    (5, status_allows),
    (6, keys_fit),
    (7, delay_fits),
    (8, cents_fit),
    (9, clock_is_right),
    (10, secret_opens),
];

/// The refusals of the checks that say no, in their order.
pub fn noes<'a>(book: &'a Book, command: &'a Command<'a>) -> impl Iterator<Item = u8> + use<'a> {
    let no = CHECKS
        .iter()
        .filter(move |(_, check)| !check(book, command));
    no.map(|(refusal, _)| *refusal)
}

/// The channel that a command names, once it is known to exist.
pub fn named<'a>(book: &'a Book, command: &Command) -> Option<&'a Channel> {
    book.channels.get(usize::from(command.channel?))
}

fn time_fits(book: &Book, command: &Command) -> bool {
    match command.order {
        Order::Clock { time } => book.clock <= time && time <= LARGEST,
        _ => true,
    }
}

fn channel_exists(_: &Book, command: &Command) -> bool {
    command.channel.is_none_or(|n| usize::from(n) < CHANNELS)
}

fn status_allows(book: &Book, command: &Command) -> bool {
    let allowed: &[u8] = match command.order {
        Order::Clock { .. } => return true,
        Order::Establish { .. } => &[0],
        Order::CustomerFunds { .. } => &[1],
        Order::MerchantFunds { .. } | Order::Reclaim => &[2],
        Order::MutualClose { .. } | Order::MerchantCloses => &[3],
        Order::CustomerCloses { .. } => &[3, 4],
        Order::Dispute { .. } => &[5],
        Order::Settle => &[4, 5],
    };
    named(book, command).is_some_and(|channel| allowed.contains(&channel.status))
}

fn keys_fit(_: &Book, command: &Command) -> bool {
    match command.order {
        Order::Establish {
            customer, merchant, ..
        } => customer[..8] == TYPES && merchant[..8] == TYPES && customer != merchant,
        _ => true,
    }
}

fn delay_fits(_: &Book, command: &Command) -> bool {
    match command.order {
        Order::Establish { delay, .. } => delay == 0 || DELAYS.contains(&delay),
        _ => true,
    }
}

fn cents_fit(book: &Book, command: &Command) -> bool {
    let Some(channel) = named(book, command) else {
        return true;
    };
    let sum = |a, b| u128::from(a) + u128::from(b);
    match command.order {
        Order::Establish {
            customer_deposit: c,
            merchant_deposit: b,
            ..
        } => (1..=u128::from(LARGEST)).contains(&sum(c, b)),
        Order::CustomerFunds { cents } => cents == channel.customer.deposit,
        Order::MerchantFunds { cents } => cents == channel.merchant.deposit,
        Order::MutualClose { customer, merchant }
        | Order::CustomerCloses {
            customer, merchant, ..
        } => sum(customer, merchant) == channel.deposits(),
        _ => true,
    }
}

fn clock_is_right(book: &Book, command: &Command) -> bool {
    let Some(channel) = named(book, command) else {
        return true;
    };
    match (command.order, channel.status) {
        (Order::CustomerCloses { .. }, 4) | (Order::Dispute { .. }, _) => {
            book.clock < channel.deadline
        }
        (Order::Settle, _) => channel.deadline <= book.clock,
        _ => true,
    }
}

fn secret_opens(book: &Book, command: &Command) -> bool {
    match (command.order, named(book, command)) {
        (Order::Dispute { secret }, Some(channel)) => digest(secret) == channel.lock,
        _ => true,
    }
}
