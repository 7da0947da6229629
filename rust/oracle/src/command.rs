//! Commands as byte strings and taken apart.
use crate::check::SIGNATURE;

/// Whole lengths of the commands 01 to 0A.
const LENGTHS: [usize; 10] = [9, 135, 11, 11, 1455, 2923, 2955, 1455, 1487, 3];

/// The whole length of a command by its first byte; none for a byte that is no command.
pub fn length(first: u8) -> Option<usize> {
    LENGTHS.get(usize::from(first).checked_sub(1)?).copied()
}

/// A command of whole length.
#[derive(Clone, Copy)]
pub struct Command<'a> {
    bytes: &'a [u8],
    /// What it asks for.
    pub order: Order<'a>,
    /// The channel that it names; 01 names none.
    pub channel: Option<u16>,
}

/// The operands of each kind of command between n and the first signature.
#[derive(Clone, Copy)]
pub enum Order<'a> {
    /// 01
    Clock { time: u64 },
    /// 02
    Establish {
        customer: &'a [u8; 56],
        merchant: &'a [u8; 56],
        customer_deposit: u64,
        merchant_deposit: u64,
        delay: u32,
    },
    /// 03
    CustomerFunds { cents: u64 },
    /// 04
    MerchantFunds { cents: u64 },
    /// 05
    Reclaim,
    /// 06
    MutualClose { customer: u64, merchant: u64 },
    /// 07
    CustomerCloses {
        lock: &'a [u8; 32],
        customer: u64,
        merchant: u64,
    },
    /// 08
    MerchantCloses,
    /// 09
    Dispute { secret: &'a [u8; 32] },
    /// 0A
    Settle,
}

impl<'a> Command<'a> {
    /// The command, or refusal 1 or 2.
    pub fn parse(bytes: &'a [u8]) -> Result<Command<'a>, u8> {
        let (&first, mut rest) = bytes.split_first().ok_or(1)?;
        if bytes.len() != length(first).ok_or(1)? {
            return Err(2);
        }
        let channel = match first {
            1 => None,
            _ => Some(u16::from_be_bytes(*take(&mut rest))),
        };
        let order = order(first, rest);
        Ok(Command {
            bytes,
            order,
            channel,
        })
    }

    /// The signed message in the book with this id.
    pub fn message(&self, id: &[u8; 16]) -> Vec<u8> {
        let operands = 1..self.bytes.len() - SIGNATURE * self.signatures();
        [&self.bytes[..1], id, &self.bytes[operands]].concat()
    }

    /// The merchant's signature, if the command has one.
    pub fn merchant_signature(&self) -> Option<&'a [u8]> {
        match self.order {
            Order::MutualClose { .. } | Order::CustomerCloses { .. } => Some(self.signature(2)),
            Order::MerchantCloses | Order::Dispute { .. } => Some(self.signature(1)),
            _ => None,
        }
    }

    /// The customer's signature, if the command has one.
    pub fn customer_signature(&self) -> Option<&'a [u8]> {
        match self.order {
            Order::Reclaim | Order::MutualClose { .. } | Order::CustomerCloses { .. } => {
                Some(self.signature(1))
            }
            _ => None,
        }
    }

    /// How many signatures the command has.
    fn signatures(&self) -> usize {
        let both = [self.merchant_signature(), self.customer_signature()];
        both.iter().flatten().count()
    }

    /// The signature at this place, counted from the end of the command.
    fn signature(&self, place: usize) -> &'a [u8] {
        &self.bytes[self.bytes.len() - place * SIGNATURE..][..SIGNATURE]
    }
}

/// The operands behind n, or behind the first byte for 01.
fn order(first: u8, mut rest: &[u8]) -> Order<'_> {
    let rest = &mut rest;
    match first {
        0x01 => Order::Clock { time: cents(rest) },
        0x02 => Order::Establish {
            customer: take(rest),
            merchant: take(rest),
            customer_deposit: cents(rest),
            merchant_deposit: cents(rest),
            delay: u32::from_be_bytes(*take(rest)),
        },
        0x03 => Order::CustomerFunds { cents: cents(rest) },
        0x04 => Order::MerchantFunds { cents: cents(rest) },
        0x05 => Order::Reclaim,
        0x06 => Order::MutualClose {
            customer: cents(rest),
            merchant: cents(rest),
        },
        0x07 => Order::CustomerCloses {
            lock: take(rest),
            customer: cents(rest),
            merchant: cents(rest),
        },
        0x08 => Order::MerchantCloses,
        0x09 => Order::Dispute { secret: take(rest) },
        _ => Order::Settle,
    }
}

/// The next bytes; a command of whole length has them.
fn take<'a, const N: usize>(rest: &mut &'a [u8]) -> &'a [u8; N] {
    let (head, tail) = rest.split_first_chunk().unwrap();
    *rest = tail;
    head
}

/// The next eight bytes as a number.
fn cents(rest: &mut &[u8]) -> u64 {
    u64::from_be_bytes(*take(rest))
}
