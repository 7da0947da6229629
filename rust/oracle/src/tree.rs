//! The tree of leaf keys (RFC 8554 section 5). Node 1 is the root, node 2^height + q the leaf q.
use crate::sha256::{digest_of, Digest};

/// The node of a leaf key.
pub fn leaf(identifier: &[u8; 16], node: u32, leaf_key: &Digest) -> Digest {
    digest_of(&[identifier, &node.to_be_bytes(), &[0x82, 0x82], leaf_key])
}

/// The node above two children.
pub fn parent(identifier: &[u8; 16], node: u32, left: &Digest, right: &Digest) -> Digest {
    digest_of(&[identifier, &node.to_be_bytes(), &[0x83, 0x83], left, right])
}

/// The top that a node reaches with the strings of its path.
pub fn climb(identifier: &[u8; 16], node: u32, from: Digest, path: &[Digest]) -> Digest {
    let mut node = node;
    let mut here = from;
    for beside in path {
        let (left, right) = if node % 2 == 1 {
            (beside, &here)
        } else {
            (&here, beside)
        };
        node /= 2;
        here = parent(identifier, node, left, right);
    }
    here
}
