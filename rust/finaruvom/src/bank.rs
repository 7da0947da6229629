//! Bank lines: the payments of a run as a list, and a list as entries of packed decimal.
//!
//! An entry has [`ENTRY_SIZE`](crate::ENTRY_SIZE) bytes: the party in one, the channel in two, the
//! amount in eight, which are fifteen digits, each in half a byte, and C in hexadecimal.
//!
//! ```
//! use finaruvom::bank::{self, Payee, Payment};
//! use finaruvom::{Cents, Refusal, ENTRY_SIZE};
//!
//! let list = [
//!     Payment { party: Payee::Customer, channel: 3, amount: Cents(12_345) },
//!     Payment { party: Payee::Merchant, channel: 63, amount: Cents(1) },
//! ];
//! let mut buffer = [0; 2 * ENTRY_SIZE];
//! assert_eq!(bank::write(&list, &mut buffer)?, 2);
//! assert_eq!(buffer[..11], [1, 0, 3, 0, 0, 0, 0, 0, 0x12, 0x34, 0x5c]);
//! assert_eq!(buffer[11..], [2, 0, 63, 0, 0, 0, 0, 0, 0, 0, 0x1c]);
//!
//! let mut read = [Payment::default(); 2];
//! assert_eq!(bank::read(&buffer, &mut read)?, 2);
//! assert_eq!(read, list);
//! # Ok::<(), Refusal>(())
//! ```
//!
//! Every list that was written is read back equal, and no other bytes are read as that list. A call
//! answers how many payments it collected, wrote or read, and keeps the entries and bytes behind the
//! last. One that is refused keeps all.

mod payment;

use crate::journal::Line;
use crate::raw;
use crate::refusal::Refusal;

pub use payment::{Payee, Payment};

/// Collects the payments of a run from its commands and its lines: each above zero, in the order of
/// the commands, the customer's before the merchant's.
///
/// The merchant's is what he gets. The fee is a payment to neither, and is not collected.
///
/// It goes through commands and lines side by side, whatever refusal a line shows, passes over 01,
/// and ends where the run would. A list with twice as many entries as there are lines is long
/// enough. Any amount is collected, also one that [`write()`] then refuses.
///
/// ```
/// use finaruvom::bank::{self, Payee, Payment};
/// use finaruvom::command::{Establish, FundMerchant, MutualClose, Signatures};
/// use finaruvom::{Book, Cents, Line, Refusal, Settings};
/// # let customer = oracle::Signer::with_leaves([1; 32], [1; 16], &[0]);
/// # let merchant = oracle::Signer::with_leaves([2; 32], [2; 16], &[0]);
///
/// let mut book = Book::open_with(&[7; 16], &Settings::desk().with_fee(250))?;
/// let establish = Establish {
///     channel: 5,
///     customer_key: customer.key(),
///     merchant_key: merchant.key(),
///     customer: Cents(0),
///     merchant: Cents(1_000),
///     delay: 0,
/// };
/// let fund = FundMerchant { channel: 5, amount: Cents(1_000) };
/// let close = MutualClose { channel: 5, customer: Cents(400), merchant: Cents(600) };
/// let message = close.message(book.id());
/// let close = close.command(Signatures {
///     merchant: &merchant.sign(0, &[3; 32], &message),
///     customer: &customer.sign(0, &[4; 32], &message),
/// });
/// let journal = [&establish.command()[..], &fund.command(), &close].concat();
///
/// let mut lines = [Line::default(); 3];
/// assert_eq!(book.run(&journal, &mut lines).lines, 3);
/// let mut list = [Payment::default(); 6];
/// let count = bank::collect(&journal, &lines, &mut list)?;
/// let payment = |party, cents| Payment { party, channel: 5, amount: Cents(cents) };
/// // Of the merchant's 600 the desk keeps 15.
/// let paid = [payment(Payee::Customer, 400), payment(Payee::Merchant, 585)];
/// assert_eq!(list[..count], paid);
/// # Ok::<(), Refusal>(())
/// ```
///
/// # Errors
///
/// [`Refusal::Room`] where the list is too short.
pub fn collect(commands: &[u8], lines: &[Line], list: &mut [Payment]) -> Result<usize, Refusal> {
    // SAFETY: commands and lines are readable, and a line is laid out as the boundary's. The list is
    // lent exclusively and laid out as the boundary's; the library stores no party but 1 and 2, and
    // leaves the other entries as they are.
    let counted = unsafe {
        raw::finaruvom_collect(
            commands.as_ptr(),
            commands.len(),
            lines.as_ptr().cast(),
            lines.len(),
            list.as_mut_ptr().cast(),
            list.len(),
        )
    };
    count(counted)
}

/// Writes an entry for each payment of a list.
///
/// ```
/// use finaruvom::bank::{self, Payee, Payment};
/// use finaruvom::{Cents, Refusal, ENTRY_SIZE, LARGEST_AMOUNT};
///
/// let mut buffer = [0; ENTRY_SIZE];
/// let mut payment = Payment { party: Payee::Merchant, channel: 0, amount: LARGEST_AMOUNT };
/// assert_eq!(bank::write(&[payment], &mut buffer), Ok(1));
/// assert_eq!(buffer[3..], [0x99, 0x99, 0x99, 0x99, 0x99, 0x99, 0x99, 0x9c]);
/// assert_eq!(bank::write(&[payment], &mut buffer[1..]), Err(Refusal::Room));
///
/// payment.amount = Cents(1_000_000_000_000_000);
/// assert_eq!(bank::write(&[payment], &mut buffer), Err(Refusal::Payment));
/// ```
///
/// # Errors
///
/// [`Refusal::Payment`] where a channel is not below [`CHANNELS`](crate::CHANNELS), or an amount is
/// 0 or above [`LARGEST_AMOUNT`](crate::LARGEST_AMOUNT), then [`Refusal::Room`] where the buffer is
/// too short.
pub fn write(list: &[Payment], buffer: &mut [u8]) -> Result<usize, Refusal> {
    // SAFETY: the list is readable and laid out as the boundary's, and the buffer is lent
    // exclusively.
    let counted = unsafe {
        raw::finaruvom_write(
            list.as_ptr().cast(),
            list.len(),
            buffer.as_mut_ptr(),
            buffer.len(),
        )
    };
    count(counted)
}

/// Reads the payments of entries.
///
/// ```
/// use finaruvom::bank::{self, Payee, Payment};
/// use finaruvom::{Cents, Refusal};
///
/// let mut entry = [1, 0, 3, 0, 0, 0, 0, 0, 0x12, 0x34, 0x5c];
/// let mut list = [Payment::default(); 4];
/// assert_eq!(bank::read(&entry, &mut list), Ok(1));
/// let paid = Payment { party: Payee::Customer, channel: 3, amount: Cents(12_345) };
/// assert_eq!(list[0], paid);
/// assert_eq!(bank::read(&entry[1..], &mut list), Err(Refusal::Room));
///
/// // Packed decimal with a D at its end is a debt.
/// entry[10] = 0x5d;
/// assert_eq!(bank::read(&entry, &mut list), Err(Refusal::Entry));
/// ```
///
/// # Errors
///
/// [`Refusal::Room`] where the length is no multiple of [`ENTRY_SIZE`](crate::ENTRY_SIZE) or the
/// list has fewer entries, then [`Refusal::Entry`] where an entry is not as [`write()`] writes one.
pub fn read(bytes: &[u8], list: &mut [Payment]) -> Result<usize, Refusal> {
    // SAFETY: the bytes are readable. The list is lent exclusively and laid out as the boundary's;
    // the library stores no party but 1 and 2, and leaves the other entries as they are.
    let counted = unsafe {
        raw::finaruvom_read_payments(
            bytes.as_ptr(),
            bytes.len(),
            list.as_mut_ptr().cast(),
            list.len(),
        )
    };
    count(counted)
}

/// How many payments there were, or the refusal.
fn count(counted: raw::Counted) -> Result<usize, Refusal> {
    Refusal::checked(counted.refusal)?;
    Ok(counted.payments)
}
