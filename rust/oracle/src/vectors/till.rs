//! Key makings and signings of a till.
use super::lms::MADE;
use super::text::{array, bytes, lines};
use crate::check::check;
use crate::till::{Signed, Till};

const LINES: &str = include_str!("../../vectors/signer.txt");

/// A key making; that of the shared key, which takes seconds, is made once.
fn make(seed: &[u8], identifier: &[u8]) -> (u8, Till) {
    let (_, made) = &*MADE;
    match seed == made.seed && *identifier == made.key[8..24] {
        true => MADE.clone(),
        false => Till::make(seed, identifier),
    }
}

/// Holds a signing to its line; an accepted signature is good under the signer's key, and the check
/// hands back its leaf.
fn signs(till: &mut Till, words: &[&str]) {
    let message = bytes(words[2]);
    let mut moved = till.clone();
    let signed = till.sign(&bytes(words[1]), &message);
    let expected = Signed {
        refusal: words[4].parse().unwrap(),
        signature: array(words[6]),
    };
    assert_eq!(signed, expected);
    let accepted = signed.refusal == 0;
    let verdict = check(&till.key, &message, &signed.signature);
    let leaf = if accepted { moved.next } else { 0 };
    assert_eq!((verdict.good, verdict.leaf), (accepted, leaf));
    moved.next += u32::from(accepted);
    assert_eq!(*till, moved);
}

#[test]
fn makings_and_signings() {
    let lines = lines(LINES);
    let (_, mut till) = make(&[], &[]);
    for words in &lines {
        match words[0] {
            "make" => {
                let made = make(&bytes(words[1]), &bytes(words[2]));
                assert_eq!(made.0.to_string(), words[4]);
                till = made.1;
                assert_eq!(till.key, array(words[6]));
            }
            "sign" => signs(&mut till, words),
            _ => till.next = words[1].parse().unwrap(),
        }
        if words[0] != "leaf" {
            assert_eq!(till.next.to_string(), words[5]);
        }
    }
    assert_eq!(lines.len(), 22);
}

#[test]
fn refused_makings() {
    let (refusal, till) = Till::make(&[1; 32], &[2; 15]);
    let zeros = Till {
        key: [0; 56],
        seed: [0; 32],
        next: 1_024,
        nodes: vec![[0; 32]; 2_048],
    };
    assert_eq!((refusal, &till), (2, &zeros));
    for (seed, identifier) in [(0, 16), (31, 16), (33, 16), (32, 0), (32, 17), (33, 15)] {
        let made = Till::make(&vec![1; seed], &vec![2; identifier]);
        assert_eq!(made, (2, till.clone()), "{seed} and {identifier}");
    }
}

/// Whatever stands in a signer, its own values make the signature: the path is its nodes'.
#[test]
fn any_values() {
    let odd = |next| Till {
        key: [0xa5; 56],
        seed: [7; 32],
        next,
        nodes: (0..2_048u32).map(|node| [node as u8; 32]).collect(),
    };
    let mut till = odd(1);
    let Signed { refusal, signature } = till.sign(&[9; 32], b"loaf");
    assert_eq!((refusal, till), (0, odd(2)));
    assert_eq!(signature[..8], [0, 0, 0, 1, 0, 0, 0, 4]);
    let beside = [1_024, 513, 257, 129, 65, 33, 17, 9, 5, 3].map(|node: u32| [node as u8; 32]);
    assert_eq!(signature[1_132..], *beside.as_flattened());
    for next in [1_024, 1_025, u32::MAX] {
        let mut till = odd(next);
        assert_eq!(till.sign(&[9; 32], &[]).refusal, 15);
        assert_eq!(till.sign(&[9; 31], &[]).refusal, 2);
        assert_eq!(till, odd(next));
    }
}
