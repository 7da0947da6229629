//! One signer in the library and the same in the oracle.
use crate::bridge::{to_signature, to_signed, to_signer};
use crate::fence::Fenced;
use crate::kinds::signers::{self, Signing};
use crate::pair::{hex, same, Outcome};
use crate::tally::Tally;
use finaruvom::{raw, Refusal, Signer};
use oracle::{Signed, Till};
use std::ops::Range;
use std::thread;

/// Where the next leaf stands in a stored signer.
const NEXT: Range<usize> = 88..92;

/// Two signers that must stay equal.
pub struct Tills {
    pub library: Signer,
    pub oracle: Till,
}

impl Tills {
    /// Both with these values.
    pub fn new(oracle: Till) -> Tills {
        let library = restored(&to_signer(&oracle));
        Tills { library, oracle }
    }

    /// A copy of each, with this next leaf.
    pub fn at(&self, next: u32) -> Tills {
        let mut bytes = self.library.as_bytes().to_vec();
        bytes[NEXT].copy_from_slice(&next.to_le_bytes());
        let library = restored(&bytes);
        let oracle = Till {
            next,
            ..self.oracle.clone()
        };
        Tills { library, oracle }
    }

    /// Makes a key in both, whatever stands there; each goes on from its own. It takes seconds where
    /// it is accepted.
    pub fn make(&mut self, seed: &[u8], identifier: &[u8], tally: &mut Tally) -> Outcome {
        let before = self.library.as_bytes();
        let (lent, made) = thread::scope(|scope| {
            let oracle = scope.spawn(|| Till::make(seed, identifier));
            let lent = lent_make(before, seed, identifier);
            (lent, oracle.join().expect("the oracle makes a key"))
        });
        if let Some(kind) = signers::making(seed, identifier) {
            tally.compared(kind);
        }
        let (refusal, after) = lent?;
        same("key making", &refusal, &u32::from(made.0))?;
        if made.0 != 0 {
            let wrapped = Signer::make(seed, identifier).err();
            same("wrapped key making", &wrapped, &Some(Refusal::Length))?;
        }
        self.library = restored(&after);
        self.oracle = made.1;
        self.agree(&after)
    }

    /// Signs a message with both.
    pub fn sign(&mut self, c: &[u8], message: &[u8], tally: &mut Tally) -> Result<Signed, String> {
        let next = self.oracle.next;
        let lent = lent_sign(self.library.as_bytes(), c, message);
        let wrapped = self.library.sign(c, message);
        let signed = self.oracle.sign(c, message);
        let signing = Signing {
            refusal: signed.refusal,
            next: Some(next),
            c: Some(c.len()),
            message: Some(message.len()),
        };
        signers::signing(&signing).for_each(|kind| tally.compared(kind));
        lent.and_then(|(signature, after)| {
            same("signing", &signature, &to_signature(&signed))?;
            same("wrapped signing", &wrapped, &to_signed(&signed))?;
            self.agree(&after)
        })
        .map_err(|text| {
            let (c, message) = (hex(c), hex(message));
            format!("{text}\nnext leaf: {next}\nC: {c}\nmessage: {message}")
        })?;
        Ok(signed)
    }

    /// Whether both signers, and the one that a call was lent, are equal in all bytes.
    fn agree(&self, lent: &[u8]) -> Outcome {
        let oracle = to_signer(&self.oracle);
        same_signer("lent", lent, &oracle)?;
        same_signer("wrapped", self.library.as_bytes(), &oracle)
    }
}

/// The library's signer of these bytes.
fn restored(bytes: &[u8]) -> Signer {
    Signer::from_bytes(bytes).expect("as many bytes as a signer has")
}

/// Whether the bytes of a signer are the oracle's; if not, where they differ.
fn same_signer(which: &str, library: &[u8], oracle: &[u8]) -> Outcome {
    if library == oracle {
        return Ok(());
    }
    for (part, place) in [("key", 0..56), ("seed", 56..88), ("next leaf", NEXT)] {
        let what = format!("{part} of the {which} signer");
        same(&what, &&library[place.clone()], &&oracle[place])?;
    }
    let nodes = library[92..].chunks(32).zip(oracle[92..].chunks(32));
    for (number, (library, oracle)) in nodes.enumerate() {
        let what = format!("node {number} of the {which} signer");
        same(&what, &library, &oracle)?;
    }
    Err(format!("the {which} signer has another length"))
}

/// Memory that holds a signer, at an address that is no multiple of eight.
fn lent(signer: &[u8]) -> Fenced {
    Fenced::new(signer.to_vec(), 4)
}

/// The bytes that a call left in the memory it was lent, if it kept to it.
fn kept(memory: &Fenced) -> Result<Vec<u8>, String> {
    match memory.intact() {
        true => Ok(memory.bytes().to_vec()),
        false => Err("a signer's neighbour was written".to_string()),
    }
}

/// The library's key making in a lent signer: the refusal and the signer after it.
fn lent_make(signer: &[u8], seed: &[u8], identifier: &[u8]) -> Result<(u32, Vec<u8>), String> {
    let mut memory = lent(signer);
    // SAFETY: the memory has a signer's size and alignment, and the slices are readable.
    let refusal = unsafe {
        raw::finaruvom_make_key(
            memory.pointer(),
            seed.as_ptr(),
            seed.len(),
            identifier.as_ptr(),
            identifier.len(),
        )
    };
    Ok((refusal, kept(&memory)?))
}

/// The library's signing with a lent signer: the answer and the signer after it.
fn lent_sign(signer: &[u8], c: &[u8], message: &[u8]) -> Result<(raw::Signature, Vec<u8>), String> {
    let mut memory = lent(signer);
    // SAFETY: the memory has a signer's size and alignment, and the slices are readable.
    let signature = unsafe {
        raw::finaruvom_sign(
            memory.pointer(),
            c.as_ptr(),
            c.len(),
            message.as_ptr(),
            message.len(),
        )
    };
    Ok((signature, kept(&memory)?))
}
