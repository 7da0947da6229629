//! Key making and signing, with the private strings of RFC 8554 Appendix A.
use crate::check::{HEIGHT, SIGNATURE, TYPES};
use crate::one_time::{Place, CHAINS};
use crate::sha256::{digest_of, Digest};
use crate::tree;

/// A private key of LMS type 6 over LM-OTS type 4.
pub struct Signer {
    pub(crate) seed: Digest,
    identifier: [u8; 16],
    pub(crate) nodes: Vec<Digest>,
}

impl Signer {
    /// The key of a seed and an identifier.
    pub fn new(seed: Digest, identifier: [u8; 16]) -> Signer {
        let leaves: Vec<u32> = (0..1 << HEIGHT).collect();
        Signer::with_leaves(seed, identifier, &leaves)
    }

    /// A key that can sign with these leaves alone: zeros stand in the tree for the others. It is
    /// quick to make.
    pub fn with_leaves(seed: Digest, identifier: [u8; 16], leaves: &[u32]) -> Signer {
        Signer {
            seed,
            identifier,
            nodes: nodes(&seed, &identifier, HEIGHT, leaves),
        }
    }

    /// The public key.
    pub fn key(&self) -> [u8; 56] {
        let mut key = [0; 56];
        key[..8].copy_from_slice(&TYPES);
        key[8..24].copy_from_slice(&self.identifier);
        key[24..].copy_from_slice(&self.nodes[1]);
        key
    }

    /// The signature of a message by a leaf, with the string C.
    pub fn sign(&self, leaf: u32, c: &Digest, message: &[u8]) -> [u8; SIGNATURE] {
        let place = Place {
            identifier: &self.identifier,
            leaf,
        };
        signature(&self.seed, &place, &self.nodes, c, message)
    }
}

/// The signature of a message at a place, with its path out of these nodes.
pub(crate) fn signature(
    seed: &Digest,
    place: &Place,
    nodes: &[Digest],
    c: &Digest,
    message: &[u8],
) -> [u8; SIGNATURE] {
    let mut signature = Vec::with_capacity(SIGNATURE);
    signature.extend(place.leaf.to_be_bytes());
    signature.extend(&TYPES[4..]);
    signature.extend(c);
    for (chain, digit) in Place::digits(&place.hash(c, message))
        .into_iter()
        .enumerate()
    {
        let string = private(seed, place, chain);
        signature.extend(place.walk(chain, 0, digit, &string));
    }
    signature.extend(&TYPES[..4]);
    for level in 0..HEIGHT {
        let node = ((1 << HEIGHT) + place.leaf) >> level;
        signature.extend(nodes[(node ^ 1) as usize]);
    }
    signature.try_into().unwrap()
}

/// The private string of a chain.
fn private(seed: &Digest, place: &Place, chain: usize) -> Digest {
    digest_of(&[
        place.identifier,
        &place.leaf.to_be_bytes(),
        &(chain as u16).to_be_bytes(),
        &[0xff],
        seed,
    ])
}

/// The nodes of a tree by their numbers, from 1 on; zeros stand for the leaves not named.
pub(crate) fn nodes(
    seed: &Digest,
    identifier: &[u8; 16],
    height: u32,
    leaves: &[u32],
) -> Vec<Digest> {
    let mut nodes = vec![[0; 32]; 2 << height];
    for &leaf in leaves {
        let place = Place { identifier, leaf };
        let ends: [Digest; CHAINS] =
            std::array::from_fn(|chain| place.walk(chain, 0, 255, &private(seed, &place, chain)));
        let node = (1 << height) + leaf;
        nodes[node as usize] = tree::leaf(identifier, node, &place.leaf_key(&ends));
    }
    for node in (1..1usize << height).rev() {
        let (left, right) = (&nodes[2 * node], &nodes[2 * node + 1]);
        nodes[node] = tree::parent(identifier, node as u32, left, right);
    }
    nodes
}
