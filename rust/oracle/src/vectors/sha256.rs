//! Digests.
use super::text::{array, bytes, lines};
use crate::sha256::hash;

#[test]
fn digests() {
    let lines = lines(include_str!("../../vectors/sha256.txt"));
    for words in &lines {
        let message = match words[0].strip_prefix("n=") {
            Some(n) => (0..n.parse().unwrap())
                .map(|i: u32| (7 * i + 3) as u8)
                .collect(),
            None => bytes(words[0]),
        };
        assert_eq!(hash(&message), (0, array(words[1])), "{}", words[0]);
    }
    assert_eq!(lines.len(), 21);
}

#[test]
fn too_long() {
    assert_eq!(hash(&[0; 65_537]), (2, [0; 32]));
}
