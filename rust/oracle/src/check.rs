//! The signature check: LMS type 6 (height 10) over LM-OTS type 4.
use crate::one_time::Place;
use crate::sha256::Digest;
use crate::tree;

/// The types at the head of a key, 6 and 4.
pub const TYPES: [u8; 8] = [0, 0, 0, 6, 0, 0, 0, 4];
/// Bytes of a signature.
pub const SIGNATURE: usize = 1_452;
/// Bytes of the longest message.
pub const LONGEST_MESSAGE: usize = 1_024;
/// Levels of the tree.
pub const HEIGHT: u32 = 10;

/// What a check answers.
#[derive(Clone, Copy, Debug, PartialEq, Eq)]
pub struct Verdict {
    /// 0, or 2 for a message that is too long.
    pub refusal: u8,
    /// Whether the signature is good.
    pub good: bool,
    /// Chain steps made.
    pub steps: u32,
    /// The leaf that signed, of document 02 No. 5; 0 where the signature is not good.
    pub leaf: u32,
}

/// Checks the signature of a message under a key.
pub fn check(key: &[u8], message: &[u8], signature: &[u8]) -> Verdict {
    let no = |refusal| Verdict {
        refusal,
        good: false,
        steps: 0,
        leaf: 0,
    };
    if message.len() > LONGEST_MESSAGE {
        return no(2);
    }
    match (Key::parse(key), Signature::parse(signature)) {
        (Some(key), Some(signature)) => verdict(&key, message, &signature),
        _ => no(0),
    }
}

struct Key<'a> {
    identifier: &'a [u8; 16],
    root: &'a Digest,
}

impl Key<'_> {
    /// The parts of a key of the right length and types.
    fn parse(bytes: &[u8]) -> Option<Key<'_>> {
        let (types, rest) = bytes.split_first_chunk::<8>()?;
        let (identifier, root) = rest.split_first_chunk::<16>()?;
        let root = root.try_into().ok()?;
        (*types == TYPES).then_some(Key { identifier, root })
    }
}

struct Signature<'a> {
    leaf: u32,
    c: &'a Digest,
    strings: &'a [Digest],
    path: &'a [Digest],
}

impl Signature<'_> {
    /// The parts of a signature of the right length, types and leaf.
    fn parse(bytes: &[u8]) -> Option<Signature<'_>> {
        let bytes: &[u8; SIGNATURE] = bytes.try_into().ok()?;
        let leaf = u32::from_be_bytes(bytes[..4].try_into().unwrap());
        let fits =
            leaf < 1 << HEIGHT && bytes[4..8] == TYPES[4..] && bytes[1128..1132] == TYPES[..4];
        fits.then_some(Signature {
            leaf,
            c: bytes[8..40].try_into().unwrap(),
            strings: bytes[40..1128].as_chunks().0,
            path: bytes[1132..].as_chunks().0,
        })
    }
}

/// The verdict on parts of the right form.
fn verdict(key: &Key, message: &[u8], signature: &Signature) -> Verdict {
    let place = Place {
        identifier: key.identifier,
        leaf: signature.leaf,
    };
    let q = place.hash(signature.c, message);
    let (leaf_key, steps) = place.walked(&q, signature.strings);
    let node = (1 << HEIGHT) + signature.leaf;
    let leaf = tree::leaf(key.identifier, node, &leaf_key);
    let good = tree::climb(key.identifier, node, leaf, signature.path) == *key.root;
    Verdict {
        refusal: 0,
        good,
        steps,
        leaf: if good { signature.leaf } else { 0 },
    }
}
