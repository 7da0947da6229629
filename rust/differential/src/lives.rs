//! Whole lives of accounts, up to each of their ends. Every command of a life is accepted.
use crate::plan::{Hand, Plan};
use crate::rng::Rng;
use crate::wallet::{Wallet, LEAVES};
use oracle::digest;

/// The ways to an open channel: both sides fund it, the merchant alone, or the customer alone.
const FUNDINGS: [&[u8]; 3] = [&[2, 3, 4], &[2, 4], &[2, 3]];

/// The ways from an open channel to its end. A 01 sets the clock to the deadline.
const ENDS: [&[u8]; 6] = [
    &[6],
    &[7, 9],
    &[7, 1, 10],
    &[8, 1, 10],
    &[8, 7, 9],
    &[8, 7, 1, 10],
];

/// Lives that end before the merchant funds.
const RECLAIMS: [&[u8]; 2] = [&[2, 3, 5], &[2, 5]];

/// Deposits of one side, of which any two fit.
const DEPOSITS: [u64; 4] = [1, 100, 900, (1 << 62) - 1];

/// The commands of every life.
pub fn lives() -> Vec<Vec<u8>> {
    let opened = FUNDINGS.iter().flat_map(|funding| {
        let whole = |end: &&[u8]| [funding, *end].concat();
        ENDS.iter().map(whole)
    });
    let reclaimed = RECLAIMS.iter().map(|life| life.to_vec());
    reclaimed.chain(opened).collect()
}

/// What the commands of one account have in common: two deposits, a secret, and who signs.
#[derive(Clone)]
pub struct Terms {
    common: Plan,
    /// The merchant's leaves in 08, 07 and 09. A 07 may use that of the 08, a 09 neither.
    leaves: [u32; 3],
}

impl Terms {
    /// Terms of channel `n` for a life. A side that is not to fund deposits nothing.
    pub fn new(rng: &mut Rng, wallet: &Wallet, id: [u8; 16], n: u16, life: &[u8]) -> Terms {
        let customer = rng.below(Wallet::PARTIES);
        let merchant = (customer + 1 + rng.below(Wallet::PARTIES - 1)) % Wallet::PARTIES;
        let funds = [life.contains(&3), life.contains(&4) || life.contains(&5)];
        let [first, second, third] = rng.distinct(&LEAVES);
        let common = Plan {
            opcode: 0,
            n,
            numbers: funds.map(|funds| if funds { rng.pick(&DEPOSITS) } else { 0 }),
            keys: [customer, merchant].map(|party| wallet.key(party)),
            delay: 3_600,
            string: rng.pick(wallet.secrets()),
            signers: [merchant, customer].map(Hand::from),
            signed: (0, id, n),
        };
        Terms {
            common,
            leaves: [first, rng.pick(&[first, second]), third],
        }
    }

    /// The same terms for another channel.
    pub fn of_channel(&self, n: u16) -> Terms {
        let mut common = self.common.clone();
        (common.n, common.signed.2) = (n, n);
        let leaves = self.leaves;
        Terms { common, leaves }
    }

    /// The same terms with another delay.
    pub fn delayed(mut self, delay: u32) -> Terms {
        self.common.delay = delay;
        self
    }

    /// The same terms with these deposits, the customer's and the merchant's.
    pub fn of_deposits(mut self, deposits: [u64; 2]) -> Terms {
        self.common.numbers = deposits;
        self
    }

    /// The same terms with each side in the other's place.
    pub fn swapped(mut self) -> Terms {
        self.common.keys.swap(0, 1);
        self.common.signers.swap(0, 1);
        self
    }

    /// The two deposits together.
    pub fn total(&self) -> u64 {
        self.common.numbers.iter().sum()
    }

    /// The right command of this kind; an 01 sets the clock to this time.
    pub fn plan(&self, opcode: u8, time: u64) -> Plan {
        let [customer, merchant] = self.common.numbers;
        let [in_08, in_07, in_09] = self.leaves;
        let total = self.total();
        let mut plan = self.common.clone();
        plan.opcode = opcode;
        plan.signed.0 = opcode;
        plan.signers[0].leaf = match opcode {
            7 => Some(in_07),
            8 => Some(in_08),
            9 => Some(in_09),
            _ => None,
        };
        plan.numbers = match opcode {
            1 => [time, 0],
            4 => [merchant, 0],
            6 | 7 => [total / 3, total - total / 3],
            _ => [customer, merchant],
        };
        if opcode == 7 {
            plan.string = digest(&plan.string);
        }
        plan
    }
}
