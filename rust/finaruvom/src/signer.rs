//! A till's key, which signs each message with a leaf of its own.
use crate::raw;
use crate::refusal::Refusal;
use crate::sizes::{KEY_SIZE, SIGNATURE_SIZE};
use alloc::boxed::Box;
use core::fmt;

/// A till's key: LMS type 6 over one-time type 4, with the private strings of RFC 8554 Appendix A.
///
/// A leaf that signs two messages gives others what they need to sign in the till's name. So a till
/// stores the moved signer, durably, before a signature leaves it, and never goes on from an older
/// copy.
///
/// ```
/// use finaruvom::{check, Refusal, Signer};
///
/// // A till takes seed, identifier and the nonce of each signature at random.
/// let mut signer = Signer::make(&[1; 32], &[2; 16])?;
/// let signature = signer.sign(&[3; 32], b"two loaves")?;
/// // First the moved signer is stored, then the signature is handed out.
/// let stored: Vec<u8> = signer.as_bytes().to_vec();
/// assert!(check(signer.key(), b"two loaves", &signature)?.good);
///
/// let signer = Signer::from_bytes(&stored)?;
/// assert_eq!(signer.next_leaf(), 1);
/// # Ok::<(), Refusal>(())
/// ```
///
/// There is no second one: a signer has no `clone`, and who moves it no longer has it. These do not
/// compile:
///
/// ```compile_fail,E0599
/// let signer = finaruvom::Signer::make(&[1; 32], &[2; 16]).unwrap();
/// let second = signer.clone();
/// ```
///
/// ```compile_fail,E0382
/// let signer = finaruvom::Signer::make(&[1; 32], &[2; 16]).unwrap();
/// let moved = signer;
/// assert_eq!(moved.next_leaf(), signer.next_leaf());
/// ```
pub struct Signer {
    pub(crate) raw: Box<raw::Signer>,
}

impl Signer {
    /// The key of a seed, which is the private key, and an identifier. The next leaf is 0. It takes
    /// seconds.
    ///
    /// ```
    /// use finaruvom::{Refusal, Signer};
    ///
    /// assert_eq!(Signer::make(&[1; 31], &[2; 16]).err(), Some(Refusal::Length));
    /// assert_eq!(Signer::make(&[1; 32], &[2; 17]).err(), Some(Refusal::Length));
    /// ```
    ///
    /// # Errors
    ///
    /// [`Refusal::Length`] where the seed is not [`SEED_SIZE`](crate::SEED_SIZE) or the identifier
    /// not [`ID_SIZE`](crate::ID_SIZE) bytes long.
    pub fn make(seed: &[u8], identifier: &[u8]) -> Result<Signer, Refusal> {
        let mut signer = Signer { raw: unmade() };
        // SAFETY: the signer is lent exclusively and the slices are readable.
        let number = unsafe {
            raw::finaruvom_make_key(
                &raw mut *signer.raw,
                seed.as_ptr(),
                seed.len(),
                identifier.as_ptr(),
                identifier.len(),
            )
        };
        Refusal::checked(number)?;
        Ok(signer)
    }

    /// The signature of a message by the next leaf, with the RFC's C as nonce. The signer moves to
    /// the leaf after it: store it before the signature leaves the till.
    ///
    /// # Errors
    ///
    /// [`Refusal::Length`] where the nonce is not [`NONCE_SIZE`](crate::NONCE_SIZE) bytes long or
    /// the message more than [`LONGEST_MESSAGE`](crate::LONGEST_MESSAGE), then
    /// [`Refusal::NoLeaf`] where all leaves are used. The signer keeps every value.
    pub fn sign(&mut self, nonce: &[u8], message: &[u8]) -> Result<[u8; SIGNATURE_SIZE], Refusal> {
        // SAFETY: the signer is lent exclusively and the slices are readable.
        let signature = unsafe {
            raw::finaruvom_sign(
                &raw mut *self.raw,
                nonce.as_ptr(),
                nonce.len(),
                message.as_ptr(),
                message.len(),
            )
        };
        Refusal::checked(signature.refusal)?;
        Ok(signature.bytes)
    }

    /// The public key.
    #[must_use]
    pub const fn key(&self) -> &[u8; KEY_SIZE] {
        &self.raw.key
    }

    /// The leaf that signs next; from [`LEAVES`](crate::LEAVES) on none does.
    #[must_use]
    pub const fn next_leaf(&self) -> u32 {
        self.raw.next
    }
}

impl fmt::Debug for Signer {
    /// Without the seed, and without the tree over it.
    fn fmt(&self, f: &mut fmt::Formatter<'_>) -> fmt::Result {
        f.debug_struct("Signer")
            .field("key", self.key())
            .field("next_leaf", &self.next_leaf())
            .finish_non_exhaustive()
    }
}

/// Zeros, for a key making to write over.
fn unmade() -> Box<raw::Signer> {
    let mut memory = Box::<raw::Signer>::new_uninit();
    // SAFETY: the memory is a signer's, and zeros are one.
    unsafe {
        memory.as_mut_ptr().write_bytes(0, 1);
        memory.assume_init()
    }
}
