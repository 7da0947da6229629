//! What a command answers.
use crate::raw;
use crate::refusal::Refusal;
use crate::units::Cents;
use core::fmt;

/// What a command answers: what it paid, or why it was refused, and its chain steps.
///
/// The default is the answer of a command that was accepted and paid nothing.
///
/// An answer is looked at. This does not compile:
///
/// ```compile_fail
/// #![deny(unused_must_use)]
/// let mut book = finaruvom::Book::open(&[7; 16]).unwrap();
/// book.apply(&[0x0a, 0, 0]);
/// ```
#[must_use = "a dropped answer is a lost payment"]
#[repr(transparent)]
#[derive(Clone, Copy, Default, PartialEq, Eq, Hash)]
pub struct Answer(raw::Answer);

/// What an accepted command paid to each side, and the fee.
#[must_use = "dropped payments are lost"]
#[derive(Clone, Copy, Debug, Default, PartialEq, Eq, Hash)]
pub struct Payments {
    /// Paid to the customer.
    pub customer: Cents,
    /// Paid to the merchant, who gets the rest after the fee.
    pub merchant: Cents,
    /// What the desk keeps of the payment to the merchant; the customer pays none.
    pub fee: Cents,
}

impl Answer {
    /// What the command paid.
    ///
    /// # Errors
    ///
    /// The refusal, of a refused command: it paid nothing.
    pub fn paid(&self) -> Result<Payments, Refusal> {
        Refusal::checked(self.0.refusal)?;
        Ok(Payments {
            customer: self.0.customer,
            merchant: self.0.merchant,
            fee: self.0.fee,
        })
    }

    /// The refusal, or none where the command was accepted.
    #[must_use]
    pub fn refused(&self) -> Option<Refusal> {
        Refusal::checked(self.0.refusal).err()
    }

    /// Chain steps of the signature checks made, also of a refused command.
    #[must_use]
    pub const fn steps(&self) -> u32 {
        self.0.steps
    }

    /// The answer as the boundary has it.
    pub const fn as_raw(&self) -> &raw::Answer {
        &self.0
    }

    /// An answer of the library.
    pub(crate) const fn of_library(raw: raw::Answer) -> Answer {
        Answer(raw)
    }
}

impl fmt::Debug for Answer {
    fn fmt(&self, f: &mut fmt::Formatter<'_>) -> fmt::Result {
        self.0.fmt(f)
    }
}
