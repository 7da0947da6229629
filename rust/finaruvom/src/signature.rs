//! The hash and the signature check.
use crate::raw;
use crate::refusal::Refusal;
use crate::sizes::DIGEST_SIZE;

/// What a signature check found.
#[must_use]
#[derive(Clone, Copy, Debug, PartialEq, Eq, Hash)]
pub struct Verdict {
    /// Whether the signature is good.
    pub good: bool,
    /// Chain steps made.
    pub steps: u32,
    /// The leaf that signed; 0 where the signature is not good. 0 is a leaf too, so look at `good`
    /// first.
    pub leaf: u32,
}

/// The SHA-256 digest of at most 65,536 bytes.
///
/// ```
/// use finaruvom::{hash, Refusal};
///
/// let lock = hash(&[7; 32])?;
/// assert_eq!(lock[..4], [0x4b, 0xb0, 0x6f, 0x8e]);
/// assert_eq!(hash(&[0; 65_537]), Err(Refusal::Length));
/// # Ok::<(), Refusal>(())
/// ```
///
/// # Errors
///
/// [`Refusal::Length`] of more than 65,536 bytes.
pub fn hash(bytes: &[u8]) -> Result<[u8; DIGEST_SIZE], Refusal> {
    let mut digest = [0; DIGEST_SIZE];
    // SAFETY: the slice is readable and the digest has as many bytes as are written.
    let number = unsafe { raw::finaruvom_hash(bytes.as_ptr(), bytes.len(), digest.as_mut_ptr()) };
    Refusal::checked(number)?;
    Ok(digest)
}

/// The LMS signature check (type 6 over one-time type 4) of a message of at most 1,024 bytes. A key
/// or a signature of a wrong form is not good, and makes no chain steps.
///
/// ```
/// use finaruvom::{check, Refusal};
/// use oracle::Signer;
///
/// // A key that signs with leaf 7 alone.
/// let signer = Signer::with_leaves([1; 32], [2; 16], &[7]);
/// let signature = signer.sign(7, &[3; 32], b"two loaves");
/// let verdict = check(&signer.key(), b"two loaves", &signature)?;
/// assert_eq!((verdict.good, verdict.leaf), (true, 7));
/// let verdict = check(&signer.key(), b"ten loaves", &signature)?;
/// assert_eq!((verdict.good, verdict.leaf), (false, 0));
/// # Ok::<(), Refusal>(())
/// ```
///
/// # Errors
///
/// [`Refusal::Length`] of a message of more than 1,024 bytes.
pub fn check(key: &[u8], message: &[u8], signature: &[u8]) -> Result<Verdict, Refusal> {
    let mut good = false;
    let (mut steps, mut leaf) = (0, 0);
    // SAFETY: the three slices are readable, and verdict, steps and leaf are writable.
    let number = unsafe {
        raw::finaruvom_check(
            key.as_ptr(),
            key.len(),
            message.as_ptr(),
            message.len(),
            signature.as_ptr(),
            signature.len(),
            &raw mut good,
            &raw mut steps,
            &raw mut leaf,
        )
    };
    Refusal::checked(number)?;
    Ok(Verdict { good, steps, leaf })
}
