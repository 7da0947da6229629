//! Keys and signatures.
use super::text::{array, bytes, field, lines};
use crate::check::{check, Verdict};
use crate::one_time::Place;
use crate::signer::nodes;
use crate::till::Till;
use crate::tree;
use std::sync::LazyLock;

const OWN: &str = include_str!("../../vectors/lms_h10_w8.txt");
const RFC: &str = include_str!("../../vectors/lms_rfc8554.txt");

/// The signer of the seed and the identifier that the own vectors and those of a till share.
pub static MADE: LazyLock<(u8, Till)> = LazyLock::new(|| {
    let lines = lines(OWN);
    Till::make(&bytes(field(&lines, "seed")), &bytes(field(&lines, "I")))
});

/// The part of a word behind its name and the equals sign.
fn value<'a>(words: &[&'a str], name: &str) -> &'a str {
    let found = words
        .iter()
        .find_map(|word| word.strip_prefix(name)?.strip_prefix('='));
    found.unwrap()
}

/// The leaf that a signature names.
fn leaf(signature: &[u8]) -> u32 {
    u32::from_be_bytes(*signature.first_chunk().unwrap())
}

#[test]
fn verdicts() {
    let lines = lines(OWN);
    let cases: Vec<_> = lines.iter().filter(|words| words.len() > 2).collect();
    for words in &cases {
        let part = |name| bytes(value(words, name));
        let (signature, good) = (part("signature"), value(words, "verdict") == "yes");
        let expected = Verdict {
            refusal: 0,
            good,
            steps: value(words, "steps").parse().unwrap(),
            leaf: if good { leaf(&signature) } else { 0 },
        };
        let verdict = check(&part("key"), &part("message"), &signature);
        assert_eq!(verdict, expected, "{}", words[0]);
    }
    assert_eq!(cases.len(), 18);
}

#[test]
fn key_and_signatures() {
    let lines = lines(OWN);
    let (_, mut till) = MADE.clone();
    assert_eq!(till.key, array(field(&lines, "key")));
    let good = lines.iter().filter(|words| words.contains(&"verdict=yes"));
    assert_eq!(good.clone().count(), 4);
    for words in good {
        let expected = bytes(value(words, "signature"));
        till.next = leaf(&expected);
        let signed = till.sign(&expected[8..40], &bytes(value(words, "message")));
        assert!(signed.signature[..] == expected, "{}", words[0]);
    }
}

#[test]
fn message_too_long() {
    let no = Verdict {
        refusal: 2,
        good: false,
        steps: 0,
        leaf: 0,
    };
    assert_eq!(check(&[], &[0; 1_025], &[]), no);
}

#[test]
fn leaf_key_and_path_of_the_rfc() {
    let lines = lines(RFC);
    let key = bytes(field(&lines, "key"));
    let message = bytes(field(&lines, "message"));
    let signature = bytes(field(&lines, "signature"));
    let place = Place {
        identifier: key[8..24].try_into().unwrap(),
        leaf: field(&lines, "q").parse().unwrap(),
    };
    let q = place.hash(signature[8..40].try_into().unwrap(), &message);
    let (leaf_key, steps) = place.walked(&q, signature[40..1_128].as_chunks().0);
    assert_eq!(leaf_key, array(field(&lines, "leaf_key")));
    assert_eq!(steps.to_string(), field(&lines, "chain_steps"));
    let node = 32 + place.leaf;
    let leaf = tree::leaf(place.identifier, node, &leaf_key);
    let top = tree::climb(
        place.identifier,
        node,
        leaf,
        signature[1132..].as_chunks().0,
    );
    assert_eq!(top, key[24..]);
}

#[test]
fn root_of_the_rfc() {
    let lines = lines(RFC);
    let (seed, identifier) = (array(field(&lines, "seed")), array(field(&lines, "I")));
    let leaves: Vec<u32> = (0..32).collect();
    let root = nodes(&seed, &identifier, 5, &leaves)[1];
    assert_eq!(root, array(field(&lines, "root")));
}
