//! What the wrapper makes of key making and signing.
use finaruvom::{check, Refusal, Signer, LEAVES, SIGNATURE_SIZE, SIGNER_SIZE};
use std::sync::LazyLock;
use std::thread::Builder;

/// Makings and signings from outside.
const LINES: &str = include_str!("../../oracle/vectors/signer.txt");
/// The stack that the documentation names for making a key and for signing.
const STACK: usize = 256 * 1_024;
/// Where the next leaf stands in a stored signer.
const NEXT: std::ops::Range<usize> = 88..92;

/// The given signer, fresh: a key making takes seconds, so all tests share it.
static MADE: LazyLock<Vec<u8>> = LazyLock::new(|| {
    let [_, seed, identifier, ..] = words(LINES.lines().nth(2).unwrap())[..] else {
        panic!("no key making");
    };
    let [seed, identifier] = [seed, identifier].map(bytes);
    let make = move || Signer::make(&seed, &identifier);
    let made = Builder::new().stack_size(STACK).spawn(make).unwrap();
    made.join().unwrap().unwrap().as_bytes().to_vec()
});

/// The given signer with this next leaf.
fn signer(next: u32) -> Signer {
    let mut stored = MADE.clone();
    stored[NEXT].copy_from_slice(&next.to_ne_bytes());
    Signer::from_bytes(&stored).unwrap()
}

fn words(line: &str) -> Vec<&str> {
    line.split_whitespace().collect()
}

/// The bytes of hexadecimal digits; a dash stands for none.
fn bytes(hex: &str) -> Vec<u8> {
    let digits = hex.trim_matches('-');
    let byte = |at| u8::from_str_radix(&digits[at..at + 2], 16).unwrap();
    (0..digits.len()).step_by(2).map(byte).collect()
}

/// The number of a refusal, or 0.
fn number<T>(answer: &Result<T, Refusal>) -> u8 {
    answer.as_ref().err().map_or(0, |refusal| refusal.number())
}

#[test]
fn given_makings() {
    let lines = LINES.lines().filter(|line| line.starts_with("make "));
    assert_eq!(lines.clone().count(), 4);
    for words in lines.map(words) {
        let made = match words[4] {
            "0" => Ok(signer(0)),
            _ => Signer::make(&bytes(words[1]), &bytes(words[2])),
        };
        assert_eq!(number(&made).to_string(), words[4]);
        if let Ok(made) = made {
            assert_eq!(made.key()[..], bytes(words[6]));
            assert_eq!(made.next_leaf(), 0);
        }
    }
}

/// Holds a signing to its line, and a signature to the check.
fn signs(signer: &mut Signer, words: &[&str]) {
    let message = bytes(words[2]);
    let answer = signer.sign(&bytes(words[1]), &message);
    assert_eq!(number(&answer).to_string(), words[4]);
    assert_eq!(signer.next_leaf().to_string(), words[5]);
    if let Ok(signature) = answer {
        assert!(signature[..] == bytes(words[6]));
        assert!(check(signer.key(), &message, &signature).unwrap().good);
    }
}

#[test]
fn given_signings() {
    let mut signer = signer(0);
    let mut signings = 0;
    for words in LINES.lines().map(words) {
        match words[0] {
            "leaf" => signer = self::signer(words[1].parse().unwrap()),
            "sign" => {
                signs(&mut signer, &words);
                signings += 1;
            }
            _ => {}
        }
    }
    assert_eq!(signings, 15);
}

#[test]
fn makings_refused() {
    for (seed, identifier) in [(0, 0), (31, 16), (33, 16), (32, 15), (32, 17), (32, 0)] {
        let made = Signer::make(&vec![1; seed], &vec![2; identifier]);
        assert_eq!(made.err(), Some(Refusal::Length), "{seed} and {identifier}");
    }
}

/// Asserts that a signing is refused, and that the signer keeps every value.
fn refused(signer: &mut Signer, nonce: usize, message: usize, refusal: Refusal) {
    let before = signer.as_bytes().to_vec();
    let answer = signer.sign(&vec![3; nonce], &vec![4; message]);
    assert_eq!(answer, Err(refusal), "{nonce} and {message}");
    assert_eq!(signer.as_bytes()[..], before);
}

#[test]
fn signings_refused() {
    for next in [0, LEAVES - 1, LEAVES, LEAVES + 1, u32::MAX] {
        let mut signer = signer(next);
        for (nonce, message) in [(0, 0), (31, 9), (33, 9), (32, 1_025), (33, 1_025)] {
            refused(&mut signer, nonce, message, Refusal::Length);
        }
        if next >= LEAVES {
            refused(&mut signer, 32, 0, Refusal::NoLeaf);
            refused(&mut signer, 32, 1_024, Refusal::NoLeaf);
        }
    }
}

/// The leaf that a signature names.
fn leaf(signature: &[u8; SIGNATURE_SIZE]) -> u32 {
    u32::from_be_bytes(*signature.first_chunk().unwrap())
}

#[test]
fn a_leaf_signs_once() {
    let mut signer = signer(LEAVES - 3);
    for next in LEAVES - 3..LEAVES {
        refused(&mut signer, 31, 9, Refusal::Length);
        let signature = signer.sign(&[3; 32], b"two loaves").unwrap();
        assert_eq!((leaf(&signature), signer.next_leaf()), (next, next + 1));
    }
    refused(&mut signer, 32, 9, Refusal::NoLeaf);
}

#[test]
fn stored_and_restored() {
    let mut signer = signer(7);
    signer.sign(&[3; 32], b"two loaves").unwrap();
    let stored = [&[0], &signer.as_bytes()[..]].concat();
    // From an odd address too.
    let restored = Signer::from_bytes(&stored[1..]).unwrap();
    assert_eq!(restored.as_bytes(), signer.as_bytes());
    assert_eq!((restored.key(), restored.next_leaf()), (signer.key(), 8));
    for length in [0, 1, SIGNER_SIZE - 1, SIGNER_SIZE + 1, 2 * SIGNER_SIZE] {
        let restored = Signer::from_bytes(&vec![0; length]);
        assert_eq!(restored.err(), Some(Refusal::Length), "{length}");
    }
}

/// Any bytes are a signer: its own values make the signature.
#[test]
fn any_bytes() {
    let mut stored: Vec<u8> = (0..=250).cycle().take(SIGNER_SIZE).collect();
    stored[NEXT].copy_from_slice(&0u32.to_ne_bytes());
    let mut signer = Signer::from_bytes(&stored).unwrap();
    let signature = signer.sign(&[3; 32], &[]).unwrap();
    // Node r stands from byte 92 + 32 r on, and the one beside the first leaf is 1,025.
    let beside = 92 + 32 * 1_025;
    assert_eq!(signature[1_132..1_164], stored[beside..beside + 32]);
    stored[NEXT].copy_from_slice(&1u32.to_ne_bytes());
    assert_eq!(signer.as_bytes()[..], stored);
}

#[test]
fn small_stacks() {
    let mut signer = signer(0);
    let sign = move || signer.sign(&[3; 32], &[4; 1_024]).map(|made| leaf(&made));
    let thread = Builder::new().stack_size(STACK).spawn(sign).unwrap();
    assert_eq!(thread.join().unwrap(), Ok(0));
}

#[test]
fn nothing_private_is_printed() {
    let mut stored = vec![238; SIGNER_SIZE];
    stored[..56].fill(1);
    stored[NEXT].copy_from_slice(&7u32.to_ne_bytes());
    let printed = format!("{:?}", Signer::from_bytes(&stored).unwrap());
    assert!(printed.starts_with("Signer { key: [1, 1"), "{printed}");
    assert!(printed.ends_with("], next_leaf: 7, .. }"), "{printed}");
    assert!(!printed.contains("238"), "{printed}");
}
