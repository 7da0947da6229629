//! The refusals.
use crate::numbered::{named, numbered};
use core::error::Error;

numbered! {
    /// Why a call was refused. The first check that says no decides.
    ///
    /// ```
    /// use finaruvom::{Refusal, UnknownNumber};
    ///
    /// assert_eq!(Refusal::Status.number(), 5);
    /// assert_eq!(Refusal::Status.to_string(), "the channel's status does not allow it");
    /// assert_eq!(Refusal::try_from(5), Ok(Refusal::Status));
    /// assert_eq!(Refusal::try_from(0), Err(UnknownNumber(0)));
    /// ```
    Refusal: u8 {
        Unknown = 1: "no first byte, or it is not 01 to 0A",
        Length = 2: "the length of the command, id, seed, nonce or message does not fit",
        Time = 3: "the time is before the clock or above 2^63 - 1",
        Channel = 4: "the channel is not below 64",
        Status = 5: "the channel's status does not allow it",
        Keys = 6: "a key has other types, or the two keys are equal",
        Delay = 7: "the delay is neither 0 nor 3,600 to 2,592,000",
        Cents = 8: "the cents do not fit",
        Deadline = 9: "the clock is on the wrong side of the deadline",
        Secret = 10: "the secret does not hash to the lock",
        Merchant = 11: "the merchant's signature is not good",
        Customer = 12: "the customer's signature is not good",
        SettingsDelay = 14: "the default delay of the settings is not 3,600 to 2,592,000",
        NoLeaf = 15: "the signer's leaves are all used",
        SpentLeaf = 16: "the channel remembers the dispute's leaf",
        Payment = 17: "no entry holds the payment's party, channel or amount",
        Room = 18: "the buffer or the list is too short, or the bytes are no multiple of 11",
        Entry = 19: "an entry is not as one is written",
        SettingsFee = 20: "the fee of the settings is above 1,000 ten-thousandths",
        SettingsDate = 21: "a date of the settings does not exist, or its year is not 1970 to 2399",
        SettingsDates = 22: "the settings have more than 64 dates, or dates that do not rise",
        Unsound = 99: "the book is of no opening or another layout, or a value is out of range",
    }
}

impl Refusal {
    /// Nothing for 0, else the refusal with this number of the library.
    pub(crate) fn checked(number: impl Into<u64>) -> Result<(), Refusal> {
        match number.into() {
            0 => Ok(()),
            number => Err(named(number)),
        }
    }
}

impl Error for Refusal {}
