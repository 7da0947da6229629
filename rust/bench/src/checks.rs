//! Hashes and signature checks.
use crate::timing::{best, row};
use oracle::{digest, Digest, Place, Signer};

extern "C" {
    /// The leaf key at a given hash Q, written to `key`, and the chain steps.
    fn bench_leaf_key(
        identifier: *const u8,
        leaf: u32,
        q: *const u8,
        signature: *const u8,
        signature_n: usize,
        key: *mut u8,
    ) -> u32;
}

/// Strings C to try for a signature with few steps.
const TRIES: u64 = 2_000_000;
const IDENTIFIER: [u8; 16] = [7; 16];
const LEAF: u32 = 600;

/// Digests of a short and of the longest string.
pub fn hashes() {
    for length in [55, 65_536] {
        let bytes = vec![0x5a; length];
        let library = best(|| (), |()| finaruvom::hash(&bytes));
        let oracle = best(|| (), |()| oracle::hash(&bytes));
        row(&format!("hash, {length} bytes"), library, oracle);
    }
}

/// Checks with as many steps as usual, and with the fewest that a search finds.
pub fn checks() {
    let signer = Signer::with_leaves([1; 32], IDENTIFIER, &[LEAF]);
    let cheap = (0..TRIES).map(string).min_by_key(checksum);
    for c in [Some(string(TRIES)), cheap].into_iter().flatten() {
        let (key, signature) = (signer.key(), signer.sign(LEAF, &c, &[]));
        let steps = oracle::check(&key, &[], &signature).steps;
        let library = best(|| (), |()| finaruvom::check(&key, &[], &signature));
        let oracle = best(|| (), |()| oracle::check(&key, &[], &signature));
        row(&format!("check, {steps} steps"), library, oracle);
    }
}

/// The leaf key of a check, which is all of it but twelve hashes, at the most and the fewest steps:
/// no message with such a hash Q is known, so Q is given.
pub fn leaf_keys() {
    let signature = [0x5a; 1_452];
    let place = Place {
        identifier: &IDENTIFIER,
        leaf: LEAF,
    };
    let strings = signature[40..1_128].as_chunks().0;
    for byte in [0xff, 0x00] {
        let q = [byte; 32];
        let (key, steps) = place.walked(&q, strings);
        assert_eq!(library_leaf_key(&q, &signature), (key, steps));
        let library = best(|| (), |()| library_leaf_key(&q, &signature));
        let oracle = best(|| (), |()| place.walked(&q, strings));
        row(&format!("leaf key, {steps} steps"), library, oracle);
    }
}

fn library_leaf_key(q: &Digest, signature: &[u8]) -> (Digest, u32) {
    let mut key = [0; 32];
    // SAFETY: every pointer is to as many bytes as the library reads or writes.
    let steps = unsafe {
        bench_leaf_key(
            IDENTIFIER.as_ptr(),
            LEAF,
            q.as_ptr(),
            signature.as_ptr(),
            signature.len(),
            key.as_mut_ptr(),
        )
    };
    (key, steps)
}

/// A string C by its number.
fn string(number: u64) -> Digest {
    let mut c = [0; 32];
    c[..8].copy_from_slice(&number.to_be_bytes());
    c
}

/// The checksum of the empty message's digits; the steps grow with it.
fn checksum(c: &Digest) -> u32 {
    let mut input = [0x81; 54];
    input[..16].copy_from_slice(&IDENTIFIER);
    input[16..20].copy_from_slice(&LEAF.to_be_bytes());
    input[22..].copy_from_slice(c);
    let q = digest(&input);
    q.iter().map(|&byte| 255 - u32::from(byte)).sum()
}
