//! Keys, secrets and signatures that the cases share.
use crate::plan::Hand;
use oracle::{digest, Digest, Signer, SIGNATURE};
use std::collections::HashMap;

/// The leaves that the keys can sign with. Some are equal but for their high bits.
pub const LEAVES: [u32; 10] = [0, 1, 7, 8, 9, 256, 511, 512, 1_022, 1_023];
/// Signatures to keep before the pool is emptied.
const POOL: usize = 20_000;

/// The keys of some parties, the secrets of their locks, and the signatures made so far.
pub struct Wallet {
    signers: Vec<Signer>,
    secrets: Vec<Digest>,
    pool: HashMap<(Hand, Vec<u8>), [u8; SIGNATURE]>,
}

impl Wallet {
    /// Parties that have keys.
    pub const PARTIES: usize = 6;

    /// A party's key.
    pub fn key(&self, party: usize) -> [u8; 56] {
        self.signers[party].key()
    }

    /// The party with this key.
    pub fn party(&self, key: &[u8; 56]) -> Option<usize> {
        self.signers.iter().position(|signer| signer.key() == *key)
    }

    /// The secrets.
    pub fn secrets(&self) -> &[Digest] {
        &self.secrets
    }

    /// The secret whose hash is nearest to a lock: the one that opens it, where there is one.
    pub fn secret_near(&self, lock: &Digest) -> Digest {
        let bits = |secret: &&Digest| bits_apart(&digest(*secret), lock);
        *self.secrets.iter().min_by_key(bits).unwrap()
    }

    /// A party's signature of a message, always the same one; where no leaf is named, the message
    /// chooses it.
    pub fn sign(&mut self, hand: impl Into<Hand>, message: &[u8]) -> [u8; SIGNATURE] {
        if self.pool.len() >= POOL {
            self.pool.clear();
        }
        let hand = hand.into();
        let signer = &self.signers[hand.party];
        let place = (hand, message.to_vec());
        *self.pool.entry(place).or_insert_with(|| {
            let c = digest(message);
            let chosen = LEAVES[usize::from(c[0]) % LEAVES.len()];
            signer.sign(hand.leaf.unwrap_or(chosen), &c, message)
        })
    }
}

/// How many bits differ in two strings of one length.
pub fn bits_apart(a: &[u8], b: &[u8]) -> u32 {
    a.iter().zip(b).map(|(a, b)| (a ^ b).count_ones()).sum()
}

impl Default for Wallet {
    /// Makes the keys.
    fn default() -> Wallet {
        let signer = |party: usize| {
            let seed = digest(&[party as u8]);
            let identifier = seed[..16].try_into().unwrap();
            Signer::with_leaves(seed, identifier, &LEAVES)
        };
        let secret = |number: u8| digest(&[0x5e, number]);
        Wallet {
            signers: (0..Wallet::PARTIES).map(signer).collect(),
            secrets: (0..4).map(secret).collect(),
            pool: HashMap::new(),
        }
    }
}
