//! The signature check: one bit turned over in any of its three strings, and a good signature is
//! bad. It hands back the leaf of a good one, and 0 for a bad one.
use crate::desk::wallet;
use differential::plan::Hand;
use differential::wallet::LEAVES;

const MESSAGE: &[u8] = b"opcode, book id, n, operands";

/// The places of a signature's first eight bytes and its type, and those at which each of its
/// strings, C, 34 of chains and ten of the path, begins and ends.
fn places() -> impl Iterator<Item = usize> {
    let starts = (8..1_128).step_by(32).chain((1_132..1_452).step_by(32));
    let ends = starts.clone().map(|start| start + 31);
    (0..8).chain(1_128..1_132).chain(starts).chain(ends)
}

/// Verdict and leaf of a good key, message and signature by this leaf after a change of one of them.
fn checked(leaf: u32, change: impl Fn(&mut [Vec<u8>; 3])) -> (bool, u32) {
    let hand = Hand {
        party: 0,
        leaf: Some(leaf),
    };
    let [key, signature] = {
        let mut wallet = wallet();
        [wallet.key(0).to_vec(), wallet.sign(hand, MESSAGE).to_vec()]
    };
    let mut strings = [key, MESSAGE.to_vec(), signature];
    change(&mut strings);
    let [key, message, signature] = &strings;
    let verdict = finaruvom::check(key, message, signature).unwrap();
    (verdict.good, verdict.leaf)
}

#[test]
fn leaves() {
    for leaf in LEAVES {
        assert_eq!(checked(leaf, |_| ()), (true, leaf));
    }
}

#[test]
fn one_bit_off() {
    let key = (0..56).map(|at| (0, at));
    let message = (0..MESSAGE.len()).map(|at| (1, at));
    let signature = places().map(|at| (2, at));
    for (string, at) in key.chain(message).chain(signature) {
        let turned = checked(511, |strings| strings[string][at] ^= 1 << (at % 8));
        assert_eq!(turned, (false, 0), "byte {at} of string {string}");
    }
}
