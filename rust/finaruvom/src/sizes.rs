//! The header's sizes in bytes, and its other numbers.
use crate::units::Cents;

/// The number of the book's layout, which the mark of every book carries.
pub const LAYOUT: u32 = 6;
/// Channels of a book.
pub const CHANNELS: usize = 64;
/// Bytes of a stored book.
pub const BOOK_SIZE: usize = 12_592;
/// Bytes of a book's id.
pub const ID_SIZE: usize = 16;
/// Bytes of an LMS public key: type, one-time type, identifier of 16 and root of 32.
pub const KEY_SIZE: usize = 56;
/// Bytes of an LMS signature.
pub const SIGNATURE_SIZE: usize = 1_452;
/// Bytes of a SHA-256 digest, of a lock and of its secret.
pub const DIGEST_SIZE: usize = 32;
/// Bytes of a signer's seed.
pub const SEED_SIZE: usize = 32;
/// Bytes of the nonce of a signature, the RFC's C.
pub const NONCE_SIZE: usize = 32;
/// Bytes of the longest message that is signed or checked.
pub const LONGEST_MESSAGE: usize = 1_024;
/// Leaves of a signer, each of which signs once.
pub const LEAVES: u32 = 1_024;
/// Places for the nodes of a signer's tree.
pub const NODES: usize = 2_048;
/// Bytes of a stored signer.
pub const SIGNER_SIZE: usize = 65_628;
/// Bytes of a payment's entry: party, channel in two, amount in eight.
pub const ENTRY_SIZE: usize = 11;
/// The largest amount that an entry holds, fifteen digits.
pub const LARGEST_AMOUNT: Cents = Cents(999_999_999_999_999);
/// The shortest delay in seconds.
pub const SHORTEST_DELAY: u32 = 3_600;
/// The longest delay in seconds.
pub const LONGEST_DELAY: u32 = 2_592_000;
/// What a delay of 0 stands for in a book of the plain opening.
pub const PLAIN_DELAY: u32 = 86_400;
/// What a delay of 0 stands for in a new book of the desk.
pub const DESK_DELAY: u32 = 172_800;
/// The highest fee, in ten-thousandths of what a merchant is paid.
pub const HIGHEST_FEE: u32 = 1_000;
/// Dates that an opening can be given.
pub const MOST_DATES: usize = 64;
/// Days from 1970-01-01 to 2399-12-31, the dates that there are.
pub const DAYS: u32 = 157_054;
