//! The commands that close a channel.
use super::writer::Writer;
use super::Signatures;
use crate::sizes::{DIGEST_SIZE, ID_SIZE, SIGNATURE_SIZE};
use crate::units::Cents;

/// 06: both sides close the channel, which pays each its part at once.
///
/// ```
/// use finaruvom::command::{MutualClose, Signatures};
/// use finaruvom::Cents;
/// # let customer = oracle::Signer::with_leaves([1; 32], [1; 16], &[0]);
/// # let merchant = oracle::Signer::with_leaves([2; 32], [2; 16], &[0]);
///
/// let close = MutualClose { channel: 5, customer: Cents(1), merchant: Cents(2) };
/// let message = close.message(b"corner desk 2026");
/// assert_eq!(message, *b"\x06corner desk 2026\x00\x05\0\0\0\0\0\0\0\x01\0\0\0\0\0\0\0\x02");
/// let command = close.command(Signatures {
///     merchant: &merchant.sign(0, &[3; 32], &message),
///     customer: &customer.sign(0, &[4; 32], &message),
/// });
/// assert_eq!(command[..3], [0x06, 0, 5]);
/// ```
#[derive(Clone, Copy, Debug, PartialEq, Eq, Hash)]
pub struct MutualClose {
    /// The channel.
    pub channel: u16,
    /// The customer's part.
    pub customer: Cents,
    /// The merchant's part.
    pub merchant: Cents,
}

impl MutualClose {
    /// What each side signs, in the book with this id.
    #[must_use]
    pub fn message(&self, book: &[u8; ID_SIZE]) -> [u8; 35] {
        self.operands(Writer::new(0x06).bytes(book)).done()
    }

    /// The command, with both signatures.
    #[must_use]
    pub fn command(&self, signatures: Signatures<'_>) -> [u8; 2_923] {
        self.operands(Writer::new(0x06))
            .bytes(signatures.merchant)
            .bytes(signatures.customer)
            .done()
    }

    fn operands<const N: usize>(self, head: Writer<N>) -> Writer<N> {
        head.channel(self.channel)
            .cents(self.customer)
            .cents(self.merchant)
    }
}

/// 07: the customer closes the channel with a balance that the merchant signed. It pays the
/// merchant now, and keeps the customer's part until the deadline.
///
/// ```
/// use finaruvom::command::{CustomerClose, Signatures};
/// use finaruvom::{hash, Cents, Refusal};
/// # let customer = oracle::Signer::with_leaves([1; 32], [1; 16], &[0]);
/// # let merchant = oracle::Signer::with_leaves([2; 32], [2; 16], &[0]);
///
/// let close = CustomerClose {
///     channel: 5,
///     lock: hash(&[0x5e; 32])?,
///     customer: Cents(700),
///     merchant: Cents(300),
/// };
/// let message = close.message(b"corner desk 2026");
/// assert_eq!(message[17..19], [0, 5]);
/// assert_eq!(message[19..51], close.lock);
/// let command = close.command(Signatures {
///     merchant: &merchant.sign(0, &[3; 32], &message),
///     customer: &customer.sign(0, &[4; 32], &message),
/// });
/// assert_eq!(command[..3], [0x07, 0, 5]);
/// # Ok::<(), Refusal>(())
/// ```
#[derive(Clone, Copy, Debug, PartialEq, Eq, Hash)]
pub struct CustomerClose {
    /// The channel.
    pub channel: u16,
    /// The SHA-256 of the secret that wins a dispute.
    pub lock: [u8; DIGEST_SIZE],
    /// The customer's part, which is kept.
    pub customer: Cents,
    /// The merchant's part, which is paid.
    pub merchant: Cents,
}

impl CustomerClose {
    /// What each side signs, in the book with this id.
    #[must_use]
    pub fn message(&self, book: &[u8; ID_SIZE]) -> [u8; 67] {
        self.operands(Writer::new(0x07).bytes(book)).done()
    }

    /// The command, with both signatures.
    #[must_use]
    pub fn command(&self, signatures: Signatures<'_>) -> [u8; 2_955] {
        self.operands(Writer::new(0x07))
            .bytes(signatures.merchant)
            .bytes(signatures.customer)
            .done()
    }

    fn operands<const N: usize>(self, head: Writer<N>) -> Writer<N> {
        head.channel(self.channel)
            .bytes(&self.lock)
            .cents(self.customer)
            .cents(self.merchant)
    }
}

/// 08: the merchant closes the channel. The customer can answer with a [`CustomerClose`] before the
/// deadline.
///
/// ```
/// use finaruvom::command::MerchantClose;
/// # let merchant = oracle::Signer::with_leaves([2; 32], [2; 16], &[0]);
///
/// let close = MerchantClose { channel: 5 };
/// let message = close.message(b"corner desk 2026");
/// assert_eq!(message, *b"\x08corner desk 2026\x00\x05");
/// let command = close.command(&merchant.sign(0, &[3; 32], &message));
/// assert_eq!(command[..3], [0x08, 0, 5]);
/// ```
#[derive(Clone, Copy, Debug, PartialEq, Eq, Hash)]
pub struct MerchantClose {
    /// The channel.
    pub channel: u16,
}

impl MerchantClose {
    /// What the merchant signs, in the book with this id.
    #[must_use]
    pub fn message(&self, book: &[u8; ID_SIZE]) -> [u8; 19] {
        self.operands(Writer::new(0x08).bytes(book)).done()
    }

    /// The command, with the merchant's signature.
    #[must_use]
    pub fn command(&self, merchant: &[u8; SIGNATURE_SIZE]) -> [u8; 1_455] {
        self.operands(Writer::new(0x08)).bytes(merchant).done()
    }

    fn operands<const N: usize>(self, head: Writer<N>) -> Writer<N> {
        head.channel(self.channel)
    }
}
