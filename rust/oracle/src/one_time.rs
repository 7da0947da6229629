//! The one-time part of a signature: LM-OTS type 4 (w = 8, 34 chains), RFC 8554 section 4.
use crate::sha256::{digest, digest_of, Digest};

/// Chains of a one-time key.
pub const CHAINS: usize = 34;

/// The place of a one-time key: the identifier of its tree, and its leaf.
#[derive(Clone, Copy)]
pub struct Place<'a> {
    /// The identifier I.
    pub identifier: &'a [u8; 16],
    /// The leaf q.
    pub leaf: u32,
}

impl Place<'_> {
    /// The hash Q of a message.
    pub fn hash(&self, c: &Digest, message: &[u8]) -> Digest {
        let leaf = self.leaf.to_be_bytes();
        digest_of(&[self.identifier, &leaf, &[0x81, 0x81], c, message])
    }

    /// The 34 digits of a hash Q: its 32 bytes and the two of their checksum.
    pub fn digits(q: &Digest) -> [u8; CHAINS] {
        let checksum: u16 = q.iter().map(|&byte| 255 - u16::from(byte)).sum();
        let mut digits = [0; CHAINS];
        digits[..32].copy_from_slice(q);
        digits[32..].copy_from_slice(&checksum.to_be_bytes());
        digits
    }

    /// The leaf key that a signature's strings lead to, and the chain steps to it.
    pub fn walked(&self, q: &Digest, strings: &[Digest]) -> (Digest, u32) {
        let mut ends = [[0; 32]; CHAINS];
        let mut steps = 0;
        for (chain, digit) in Self::digits(q).into_iter().enumerate() {
            ends[chain] = self.walk(chain, digit, 255, &strings[chain]);
            steps += 255 - u32::from(digit);
        }
        (self.leaf_key(&ends), steps)
    }

    /// The steps `from` to `to` - 1 of a chain.
    pub fn walk(&self, chain: usize, from: u8, to: u8, string: &Digest) -> Digest {
        let mut input = [0; 55];
        input[..16].copy_from_slice(self.identifier);
        input[16..20].copy_from_slice(&self.leaf.to_be_bytes());
        input[20..22].copy_from_slice(&(chain as u16).to_be_bytes());
        input[23..].copy_from_slice(string);
        for step in from..to {
            input[22] = step;
            let next = digest(&input);
            input[23..].copy_from_slice(&next);
        }
        input[23..].try_into().unwrap()
    }

    /// The leaf key of the 34 chain ends.
    pub fn leaf_key(&self, ends: &[Digest; CHAINS]) -> Digest {
        let leaf = self.leaf.to_be_bytes();
        digest_of(&[self.identifier, &leaf, &[0x80, 0x80], ends.as_flattened()])
    }
}
