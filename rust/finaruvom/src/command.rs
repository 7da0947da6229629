//! The commands, each a struct that writes its bytes.
//!
//! `command` gives the string that [`Book::apply`](crate::Book::apply) takes. Commands that are
//! signed have `message` too: what is signed, in the book with this id. Any operands can be
//! written; the book decides.
//!
//! The signer of this example, `oracle`, is the one of `rust/oracle`, for tests and not for tills.
//!
//! ```
//! use finaruvom::command::{Establish, FundCustomer, FundMerchant, MutualClose, Signatures};
//! use finaruvom::{Book, Cents, Payments, Refusal};
//! use oracle::Signer;
//!
//! // Each key signs with leaf 0 alone.
//! let customer = Signer::with_leaves([1; 32], [1; 16], &[0]);
//! let merchant = Signer::with_leaves([2; 32], [2; 16], &[0]);
//!
//! let mut book = Book::open(&[7; 16])?;
//! let establish = Establish {
//!     channel: 5,
//!     customer_key: customer.key(),
//!     merchant_key: merchant.key(),
//!     customer: Cents(900),
//!     merchant: Cents(100),
//!     delay: 0,
//! };
//! assert_eq!(book.apply(&establish.command()).refused(), None);
//! let fund = FundCustomer { channel: 5, amount: Cents(900) };
//! assert_eq!(book.apply(&fund.command()).refused(), None);
//! let fund = FundMerchant { channel: 5, amount: Cents(100) };
//! assert_eq!(book.apply(&fund.command()).refused(), None);
//!
//! let close = MutualClose { channel: 5, customer: Cents(400), merchant: Cents(600) };
//! let message = close.message(book.id());
//! let command = close.command(Signatures {
//!     merchant: &merchant.sign(0, &[3; 32], &message),
//!     customer: &customer.sign(0, &[4; 32], &message),
//! });
//! let paid = Payments { customer: Cents(400), merchant: Cents(600), fee: Cents(0) };
//! assert_eq!(book.apply(&command).paid(), Ok(paid));
//! # Ok::<(), Refusal>(())
//! ```

mod clock;
mod closing;
mod ending;
mod funding;
mod size;
mod writer;

use crate::sizes::SIGNATURE_SIZE;

pub use clock::SetClock;
pub use closing::{CustomerClose, MerchantClose, MutualClose};
pub use ending::{Dispute, Settle};
pub use funding::{Establish, FundCustomer, FundMerchant, Reclaim};
pub use size::size;

/// The signatures of a command that both sides sign; each is of the same message.
#[derive(Clone, Copy, Debug)]
pub struct Signatures<'a> {
    /// The merchant's, which stands first.
    pub merchant: &'a [u8; SIGNATURE_SIZE],
    /// The customer's.
    pub customer: &'a [u8; SIGNATURE_SIZE],
}
