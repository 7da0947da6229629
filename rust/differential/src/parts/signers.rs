//! Key makings and signings: of signers with any values, of keys that can sign with some leaves, and
//! of one key that both made.
use super::signatures::{compare, Signed};
use super::World;
use crate::kinds::signers::{MAKINGS, SPOILT};
use crate::pair::Outcome;
use crate::rng::Rng;
use crate::tally::Tally;
use crate::tills::Tills;
use oracle::{digest, Signer, Till, LEAVES};

/// Next leaves of signers that can sign.
const LEFT: [u32; 7] = [0, 1, 2, 511, 512, LEAVES - 2, LEAVES - 1];
/// Next leaves of those that cannot.
const NONE_LEFT: [u32; 4] = [LEAVES, LEAVES + 1, 1 << 16, u32::MAX];

/// Refused key makings, and lists of signings with refused ones among them.
pub fn case(rng: &mut Rng, world: &mut World) -> Outcome {
    for (_, seed, identifier) in MAKINGS.into_iter().skip(1) {
        let (seed, identifier) = (rng.bytes(seed), rng.bytes(identifier));
        let next = rng.number() as u32;
        Tills::new(wild(rng, next)).make(&seed, &identifier, &mut world.tally)?;
    }
    for next in [&[rng.pick(&LEFT)], &NONE_LEFT[..]].concat() {
        let mut tills = Tills::new(wild(rng, next));
        signings(&mut tills, rng, &mut world.tally)?;
    }
    let leaves = rng.pick(&[[0, 1], [LEAVES - 2, LEAVES - 1]]);
    let signer = Signer::with_leaves(rng.array(), rng.array(), &leaves);
    let fresh = Tills::new(Till::fresh(&signer));
    passing(fresh.at(leaves[0]), rng, &mut world.tally)?;
    let made = made(world)?.at(rng.pick(&LEFT));
    passing(made, rng, &mut world.tally)
}

/// A signer with any values but for its next leaf.
fn wild(rng: &mut Rng, next: u32) -> Till {
    Till {
        key: rng.array(),
        seed: rng.array(),
        next,
        nodes: (0..2 * LEAVES).map(|_| rng.array()).collect(),
    }
}

/// The key that library and oracle made, each its own, once in a run.
fn made(world: &mut World) -> Result<&Tills, String> {
    let made = match world.made.take() {
        Some(made) => made,
        None => {
            let mut tills = Tills::new(wild(&mut Rng::new(0), LEAVES));
            let (seed, identifier) = (digest(b"seed"), [0x1d; 16]);
            tills.make(&seed, &identifier, &mut world.tally)?;
            tills
        }
    };
    Ok(world.made.insert(made))
}

/// Signings whose signatures both checks pass, and none with one bit turned over.
fn passing(mut tills: Tills, rng: &mut Rng, tally: &mut Tally) -> Outcome {
    for signed in signings(&mut tills, rng, tally)? {
        verdict(&signed, true, tally)?;
        for (kind, part) in SPOILT {
            let mut spoilt = signed.clone();
            rng.flip_bit(&mut spoilt.signature[part]);
            verdict(&spoilt, false, tally).map_err(|text| format!("{kind}: {text}"))?;
            tally.compared(kind);
        }
    }
    match tills.oracle.next {
        LEAVES => signings(&mut tills, rng, tally).map(|_| ()),
        _ => Ok(()),
    }
}

/// Whether both checks give this verdict.
fn verdict(signed: &Signed, good: bool, tally: &mut Tally) -> Outcome {
    match compare(signed, tally)? == good {
        true => Ok(()),
        false => Err(format!("not {good} for both checks")),
    }
}

/// Two signings that are accepted while a leaf is left, each behind one of a wrong length; gives the
/// signatures made.
fn signings(tills: &mut Tills, rng: &mut Rng, tally: &mut Tally) -> Result<Vec<Signed>, String> {
    let mut made = Vec::new();
    for _ in 0..2 {
        let (c, message) = wrong(rng);
        tills.sign(&c, &message, tally)?;
        let message = message_to_sign(rng);
        let signed = tills.sign(&rng.bytes(32), &message, tally)?;
        if signed.refusal == 0 {
            made.push(Signed {
                key: tills.oracle.key.to_vec(),
                message,
                signature: signed.signature.to_vec(),
            });
        }
    }
    Ok(made)
}

/// A message of a length that is accepted.
fn message_to_sign(rng: &mut Rng) -> Vec<u8> {
    let any = rng.below(1_024);
    rng.bytes_of(&[0, 1, 1_023, 1_024, 1_024, any])
}

/// A string C and a message of which one or both have a wrong length.
fn wrong(rng: &mut Rng) -> (Vec<u8>, Vec<u8>) {
    let c = rng.bytes_of(&[0, 31, 33, 64]);
    let long = rng.bytes_of(&[1_025, 1_025, 2_000]);
    match rng.below(3) {
        0 => (c, long),
        1 => (rng.bytes(32), long),
        _ => (c, message_to_sign(rng)),
    }
}
