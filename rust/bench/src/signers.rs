//! Key making and signing.
use crate::timing::{best, row};
use differential::bridge::to_signer;
use finaruvom::Signer;
use oracle::Till;

const SEED: [u8; 32] = [1; 32];
const IDENTIFIER: [u8; 16] = [7; 16];
const C: [u8; 32] = [3; 32];

/// Times one key making, and signatures of a short and of the longest message.
pub fn signers() {
    let library = best(|| (), |()| Signer::make(&SEED, &IDENTIFIER));
    let oracle = best(|| (), |()| Till::make(&SEED, &IDENTIFIER));
    row("key making", library, oracle);
    let till = Till::fresh(&oracle::Signer::with_leaves(SEED, IDENTIFIER, &[0]));
    let stored = to_signer(&till);
    for length in [67, 1_024] {
        let message = vec![0x5a; length];
        let restored = || Signer::from_bytes(&stored).expect("a signer's bytes");
        let library = best(restored, |signer| signer.sign(&C, &message));
        let oracle = best(|| till.clone(), |till| till.sign(&C, &message));
        row(&format!("signature, {length} bytes"), library, oracle);
    }
}
