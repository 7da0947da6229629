//! The till's signing half, of document 02 No. 4.
use crate::check::{HEIGHT, LONGEST_MESSAGE, SIGNATURE};
use crate::one_time::Place;
use crate::sha256::Digest;
use crate::signer::{signature, Signer};

/// Leaves of a key.
pub const LEAVES: u32 = 1 << HEIGHT;

/// A till's signer. Any values may stand in it.
#[derive(Clone, Debug, PartialEq, Eq)]
pub struct Till {
    /// The public key, with the identifier that the signer signs under.
    pub key: [u8; 56],
    /// The seed of the private strings.
    pub seed: Digest,
    /// The leaf that signs next.
    pub next: u32,
    /// The nodes of the tree by their numbers, from 1 on; zeros before them.
    pub nodes: Vec<Digest>,
}

/// What a signing answers.
#[derive(Clone, Copy, Debug, PartialEq, Eq)]
pub struct Signed {
    /// The refusal's number, or 0.
    pub refusal: u8,
    /// The signature, or zeros.
    pub signature: [u8; SIGNATURE],
}

impl Till {
    /// Key making: 0 and the fresh signer of a seed and an identifier; where one has a wrong length
    /// 2 and zeros, but 1,024 as the next leaf.
    pub fn make(seed: &[u8], identifier: &[u8]) -> (u8, Till) {
        match (seed.try_into(), identifier.try_into()) {
            (Ok(seed), Ok(identifier)) => (0, Till::fresh(&Signer::new(seed, identifier))),
            _ => (2, Till::unmade()),
        }
    }

    /// The fresh signer of a key, also of one that can sign with some leaves alone.
    pub fn fresh(signer: &Signer) -> Till {
        Till {
            key: signer.key(),
            seed: signer.seed,
            next: 0,
            nodes: signer.nodes.clone(),
        }
    }

    /// What a refused key making gives.
    fn unmade() -> Till {
        Till {
            key: [0; 56],
            seed: [0; 32],
            next: LEAVES,
            nodes: vec![[0; 32]; 2 * LEAVES as usize],
        }
    }

    /// Signs a message with the next leaf and the string C, and moves to the one after it; a wrong
    /// length gives 2, then no leaf left 15.
    pub fn sign(&mut self, c: &[u8], message: &[u8]) -> Signed {
        let refused = |refusal| Signed {
            refusal,
            signature: [0; SIGNATURE],
        };
        let (Ok(c), true) = (c.try_into(), message.len() <= LONGEST_MESSAGE) else {
            return refused(2);
        };
        if self.next >= LEAVES {
            return refused(15);
        }
        let place = Place {
            identifier: self.key[8..24].try_into().unwrap(),
            leaf: self.next,
        };
        let signature = signature(&self.seed, &place, &self.nodes, c, message);
        self.next += 1;
        Signed {
            refusal: 0,
            signature,
        }
    }
}
