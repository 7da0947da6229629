//! A payment of a list.
use crate::numbered::numbered;
use crate::raw;
use crate::units::Cents;
use core::mem::offset_of;

numbered! {
    /// Whom a payment is for.
    ///
    /// ```
    /// use finaruvom::bank::Payee;
    ///
    /// assert_eq!(Payee::Customer.number(), 1);
    /// assert_eq!(Payee::Merchant.to_string(), "the merchant");
    /// assert_eq!(Payee::try_from(2), Ok(Payee::Merchant));
    /// ```
    Payee: u64 {
        Customer = 1: "the customer",
        Merchant = 2: "the merchant",
    }
}

/// A payment of a list.
///
/// The default, nothing to the customer of channel 0, holds a place in a list; no entry is written
/// of it.
#[repr(C)]
#[derive(Clone, Copy, Debug, PartialEq, Eq, Hash)]
pub struct Payment {
    /// Whom it is for.
    pub party: Payee,
    /// The channel that pays.
    pub channel: u64,
    /// What is paid.
    pub amount: Cents,
}

impl Default for Payment {
    fn default() -> Payment {
        Payment {
            party: Payee::Customer,
            channel: 0,
            amount: Cents(0),
        }
    }
}

const _: () = {
    assert!(size_of::<Payment>() == size_of::<raw::Payment>());
    assert!(align_of::<Payment>() == align_of::<raw::Payment>());
    assert!(offset_of!(Payment, party) == offset_of!(raw::Payment, party));
    assert!(offset_of!(Payment, channel) == offset_of!(raw::Payment, channel));
    assert!(offset_of!(Payment, amount) == offset_of!(raw::Payment, amount));
};
