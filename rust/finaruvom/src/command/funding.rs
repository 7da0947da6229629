//! The commands until a channel is open.
use super::writer::Writer;
use crate::sizes::{ID_SIZE, KEY_SIZE, SIGNATURE_SIZE};
use crate::units::Cents;

/// 02: establishes a channel, whose number is used once in a book. The channel awaits the customer,
/// or at once the merchant where the customer deposits nothing.
///
/// ```
/// use finaruvom::command::Establish;
/// use finaruvom::{Cents, KEY_SIZE};
///
/// let establish = Establish {
///     channel: 5,
///     customer_key: [1; KEY_SIZE],
///     merchant_key: [2; KEY_SIZE],
///     customer: Cents(900),
///     merchant: Cents(100),
///     delay: 3_600,
/// };
/// let command = establish.command();
/// assert_eq!(command[..4], [0x02, 0, 5, 1]);
/// assert_eq!(command[131..], 3_600_u32.to_be_bytes());
/// ```
#[derive(Clone, Copy, Debug, PartialEq, Eq, Hash)]
pub struct Establish {
    /// The channel, 0 to 63.
    pub channel: u16,
    /// The customer's LMS key.
    pub customer_key: [u8; KEY_SIZE],
    /// The merchant's LMS key.
    pub merchant_key: [u8; KEY_SIZE],
    /// The deposit that the customer will fund, or 0.
    pub customer: Cents,
    /// The deposit that the merchant will fund, or 0. The two together are 1 to 2^63 - 1.
    pub merchant: Cents,
    /// Seconds from a closing to its deadline, 3,600 to 2,592,000; 0 stands for the default of the
    /// book.
    pub delay: u32,
}

impl Establish {
    /// The command.
    #[must_use]
    pub fn command(&self) -> [u8; 135] {
        Writer::new(0x02)
            .channel(self.channel)
            .bytes(&self.customer_key)
            .bytes(&self.merchant_key)
            .cents(self.customer)
            .cents(self.merchant)
            .bytes(&self.delay.to_be_bytes())
            .done()
    }
}

/// 03: the customer funds the channel.
///
/// ```
/// use finaruvom::command::FundCustomer;
/// use finaruvom::Cents;
///
/// let fund = FundCustomer { channel: 5, amount: Cents(900) };
/// assert_eq!(fund.command(), [0x03, 0, 5, 0, 0, 0, 0, 0, 0, 0x03, 0x84]);
/// ```
#[derive(Clone, Copy, Debug, PartialEq, Eq, Hash)]
pub struct FundCustomer {
    /// The channel.
    pub channel: u16,
    /// The customer's deposit.
    pub amount: Cents,
}

impl FundCustomer {
    /// The command.
    #[must_use]
    pub fn command(&self) -> [u8; 11] {
        Writer::new(0x03)
            .channel(self.channel)
            .cents(self.amount)
            .done()
    }
}

/// 04: the merchant funds the channel.
///
/// ```
/// use finaruvom::command::FundMerchant;
/// use finaruvom::Cents;
///
/// let fund = FundMerchant { channel: 5, amount: Cents(100) };
/// assert_eq!(fund.command(), [0x04, 0, 5, 0, 0, 0, 0, 0, 0, 0, 100]);
/// ```
#[derive(Clone, Copy, Debug, PartialEq, Eq, Hash)]
pub struct FundMerchant {
    /// The channel.
    pub channel: u16,
    /// The merchant's deposit.
    pub amount: Cents,
}

impl FundMerchant {
    /// The command.
    #[must_use]
    pub fn command(&self) -> [u8; 11] {
        Writer::new(0x04)
            .channel(self.channel)
            .cents(self.amount)
            .done()
    }
}

/// 05: the customer takes the deposit back while the merchant has not funded. It closes the channel,
/// and pays 0 where the customer deposits nothing.
///
/// ```
/// use finaruvom::command::Reclaim;
/// # let customer = oracle::Signer::with_leaves([1; 32], [1; 16], &[0]);
///
/// let reclaim = Reclaim { channel: 5 };
/// let message = reclaim.message(b"corner desk 2026");
/// assert_eq!(message, *b"\x05corner desk 2026\x00\x05");
/// let command = reclaim.command(&customer.sign(0, &[3; 32], &message));
/// assert_eq!(command[..3], [0x05, 0, 5]);
/// ```
#[derive(Clone, Copy, Debug, PartialEq, Eq, Hash)]
pub struct Reclaim {
    /// The channel.
    pub channel: u16,
}

impl Reclaim {
    /// What the customer signs, in the book with this id.
    #[must_use]
    pub fn message(&self, book: &[u8; ID_SIZE]) -> [u8; 19] {
        self.operands(Writer::new(0x05).bytes(book)).done()
    }

    /// The command, with the customer's signature.
    #[must_use]
    pub fn command(&self, customer: &[u8; SIGNATURE_SIZE]) -> [u8; 1_455] {
        self.operands(Writer::new(0x05)).bytes(customer).done()
    }

    fn operands<const N: usize>(self, head: Writer<N>) -> Writer<N> {
        head.channel(self.channel)
    }
}
