//! The hash at short lengths and around its limit.
use super::World;
use crate::pair::{same, Outcome};
use crate::rng::Rng;
use finaruvom::raw::finaruvom_hash;

/// Parts of one random string.
pub fn case(rng: &mut Rng, world: &mut World) -> Outcome {
    let string = rng.bytes(65_600);
    let any = rng.below(string.len());
    for length in (0..=200).chain([any, 65_535, 65_536, 65_537]) {
        let start = rng.below(8).min(string.len() - length);
        let bytes = &string[start..start + length];
        let what = format!("hash of {length} bytes from {start}");
        let (refusal, digest) = oracle::hash(bytes);
        same(&what, &hash(bytes), &(u32::from(refusal), digest))?;
        world.tally.compared("hashes");
    }
    Ok(())
}

/// The library's answer and digest, which it must write whatever stood there.
fn hash(bytes: &[u8]) -> (u32, [u8; 32]) {
    let mut digest = [0xa5; 32];
    // SAFETY: the slice is readable and the digest has the 32 bytes that are written.
    let refusal = unsafe { finaruvom_hash(bytes.as_ptr(), bytes.len(), digest.as_mut_ptr()) };
    (refusal, digest)
}
