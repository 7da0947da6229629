//! Commands for a book whose state is known.
use crate::arbitrary;
use crate::plan::{Hand, Plan};
use crate::rng::Rng;
use crate::spoil;
use crate::wallet::{Wallet, LEAVES};
use oracle::{Book, Channel, Remembered, SIGNATURE};

/// Deposits that are agreed often, so that signatures come back; some are the merchant's alone.
const DEPOSITS: [[u64; 2]; 12] = [
    [900, 100],
    [0, 100],
    [0, 100],
    [0, 1],
    [0, (1 << 63) - 1],
    [900, 0],
    [1, 0],
    [1, 1],
    [2, (1 << 63) - 3],
    [(1 << 63) - 1, 0],
    [(1 << 63) - 2, 1],
    [1 << 62, (1 << 62) - 1],
];
const DELAYS: [u32; 5] = [0, 3_600, 3_601, 86_400, 2_592_000];

/// Makes commands for some channels of a book.
pub struct Maker<'a> {
    pub rng: &'a mut Rng,
    wallet: &'a mut Wallet,
    channels: Vec<u16>,
    accepted: Vec<Vec<u8>>,
}

impl<'a> Maker<'a> {
    /// A maker that works mostly on these channels.
    pub fn new(rng: &'a mut Rng, wallet: &'a mut Wallet, channels: Vec<u16>) -> Maker<'a> {
        Maker {
            rng,
            wallet,
            channels,
            accepted: Vec::new(),
        }
    }

    /// A command that may be right, wrong in some things, out of its turn, damaged or repeated.
    pub fn command(&mut self, book: &Book) -> Vec<u8> {
        let mut plan = self.right(book);
        match self.rng.below(20) {
            0..=9 => {}
            10..=14 => spoil::plan(self.rng, &mut plan),
            15 => {
                let opcode = 1 + self.rng.below(10) as u8;
                plan = self.plan(book, plan.n, opcode);
            }
            16 => plan = self.plan(book, plan.n, 1),
            17 if !self.accepted.is_empty() => return self.repeated(),
            _ => {
                let bytes = self.write(book, &plan);
                return spoil::bytes(self.rng, bytes);
            }
        }
        self.write(book, &plan)
    }

    /// A command that is wrong in some things.
    pub fn wrong(&mut self, book: &Book) -> Vec<u8> {
        let mut plan = self.right(book);
        spoil::plan(self.rng, &mut plan);
        self.write(book, &plan)
    }

    /// A dispute of this channel, signed by nobody.
    pub fn unsigned_dispute(&mut self, book: &Book, n: u16) -> Vec<u8> {
        self.plan(book, n, 9).write(|_, _| [0; SIGNATURE])
    }

    /// A dispute of this channel, right but for its leaf, which the channel may remember.
    pub fn dispute(&mut self, book: &Book, n: u16) -> Vec<u8> {
        let plan = self.plan(book, n, 9);
        self.write(book, &plan)
    }

    /// A command without signatures that fits where there is one.
    pub fn unsigned(&mut self, book: &Book) -> Vec<u8> {
        let n = self.rng.pick(&self.channels);
        let opcode = match self.fitting(book, n) {
            5..=9 => 10,
            opcode => opcode,
        };
        let plan = self.plan(book, n, opcode);
        self.write(book, &plan)
    }

    /// The command's bytes, as a rule with signatures for this message only where the checks get to
    /// them.
    fn write(&mut self, book: &Book, plan: &Plan) -> Vec<u8> {
        let blank = plan.write(|_, _| [0; SIGNATURE]);
        let refusal = oracle::apply(&mut book.clone(), &blank).refusal;
        if matches!(refusal, 11 | 12) || self.rng.one_in(8) {
            plan.write(|hand, message| self.wallet.sign(hand, message))
        } else {
            plan.write(|hand, _| self.wallet.sign(hand, b"something else"))
        }
    }

    /// Remembers an accepted command, to repeat it.
    pub fn remember(&mut self, command: Vec<u8>) {
        self.accepted.push(command);
    }

    fn repeated(&mut self) -> Vec<u8> {
        let at = self.rng.below(self.accepted.len());
        self.accepted[at].clone()
    }

    /// A right command for one of the channels, where there is one.
    fn right(&mut self, book: &Book) -> Plan {
        let n = self.rng.pick(&self.channels);
        let opcode = self.fitting(book, n);
        self.plan(book, n, opcode)
    }

    /// A command that the channel's status allows, where there is one; at times a 03 too many.
    fn fitting(&mut self, book: &Book, n: u16) -> u8 {
        let channel = &book.channels[usize::from(n)];
        let early = book.clock < channel.deadline;
        match channel.status {
            0 => 2,
            1 => 3,
            2 => self.rng.pick(&[3, 4, 4, 4, 4, 4, 5, 5]),
            3 => self.rng.pick(&[6, 7, 7, 8, 8]),
            4 if early => self.rng.pick(&[1, 7, 7, 10]),
            4 => self.rng.pick(&[7, 10, 10]),
            5 if early => self.rng.pick(&[1, 9, 9, 10]),
            5 => self.rng.pick(&[9, 10, 10]),
            _ => 1 + self.rng.below(10) as u8,
        }
    }

    /// The right operands for a command of this kind.
    fn plan(&mut self, book: &Book, n: u16, opcode: u8) -> Plan {
        let channel = &book.channels[usize::from(n)];
        let [merchant, customer] = [channel.merchant.key, channel.customer.key]
            .map(|key| self.wallet.party(&key).unwrap_or(0));
        let merchant = Hand {
            party: merchant,
            leaf: self.leaf(channel, opcode),
        };
        let keys = self.keys();
        Plan {
            opcode,
            n,
            numbers: self.numbers(book, channel, opcode),
            keys,
            delay: self.rng.pick(&DELAYS),
            string: self.string(channel, opcode),
            signers: [merchant, customer.into()],
            signed: (opcode, book.id, n),
        }
    }

    /// The merchant's leaf: in a 07 or 09 at times one that the channel remembers.
    fn leaf(&mut self, channel: &Channel, opcode: u8) -> Option<u32> {
        let Remembered { in_08, in_07 } = channel.remembered;
        let leaf = match opcode {
            7 | 9 => self.rng.pick(&[in_08, in_07, None, None, None, None]),
            _ => None,
        };
        leaf.filter(|leaf| LEAVES.contains(leaf))
    }

    fn numbers(&mut self, book: &Book, channel: &Channel, opcode: u8) -> [u64; 2] {
        let total = channel
            .customer
            .deposit
            .wrapping_add(channel.merchant.deposit);
        match opcode {
            1 => [self.time(book, channel), 0],
            2 => self.rng.pick(&DEPOSITS),
            3 => [channel.customer.deposit, 0],
            4 => [channel.merchant.deposit, 0],
            _ => {
                let parts = [0, 1, total / 2, channel.customer.deposit, total];
                let part = self.rng.pick(&parts).min(total);
                [part, total - part]
            }
        }
    }

    /// A time around the channel's deadline or the clock.
    fn time(&mut self, book: &Book, channel: &Channel) -> u64 {
        let clock = book.clock;
        let around = match channel.status {
            4 | 5 => channel.deadline,
            _ => clock.wrapping_add(u64::from(channel.delay)),
        };
        match self.rng.below(40) {
            0 => self.rng.edge(),
            1..=3 => clock.wrapping_sub(1),
            4..=8 => clock,
            9..=12 => clock.wrapping_add(1),
            13..=22 => around.wrapping_sub(1),
            23..=32 => around,
            33..=36 => around.wrapping_add(1),
            _ => clock.wrapping_add(self.rng.below(10_000) as u64),
        }
    }

    /// Two different keys with the right types, at times different in one bit alone.
    fn keys(&mut self) -> [[u8; 56]; 2] {
        let customer = self.rng.below(Wallet::PARTIES);
        let apart = 1 + self.rng.below(Wallet::PARTIES - 1);
        let parties = [customer, (customer + apart) % Wallet::PARTIES];
        let mut keys = parties.map(|party| self.wallet.key(party));
        if self.rng.one_in(6) {
            keys[0] = keys[1];
            self.rng.flip_bit(&mut keys[customer % 2][8..]);
        }
        keys
    }

    /// A lock, or the secret that opens the channel's lock or would but for some bits.
    fn string(&mut self, channel: &Channel, opcode: u8) -> [u8; 32] {
        match opcode {
            9 => self.wallet.secret_near(&channel.lock),
            _ => arbitrary::lock(self.rng, self.wallet),
        }
    }
}
