//! Money and time, which are never added to each other.
use core::fmt;

/// Declares a unit: a number that only goes with numbers of the same unit.
macro_rules! unit {
    ($(#[$attribute:meta])* $name:ident) => {
        $(#[$attribute])*
        #[repr(transparent)]
        #[derive(Clone, Copy, Debug, Default, PartialEq, Eq, PartialOrd, Ord, Hash)]
        pub struct $name(
            /// The number.
            pub u64,
        );

        impl $name {
            /// The sum, or none where it does not fit.
            #[must_use]
            pub const fn checked_add(self, other: Self) -> Option<Self> {
                match self.0.checked_add(other.0) {
                    Some(sum) => Some(Self(sum)),
                    None => None,
                }
            }
        }

        impl From<u64> for $name {
            fn from(number: u64) -> Self {
                Self(number)
            }
        }

        impl fmt::Display for $name {
            fn fmt(&self, f: &mut fmt::Formatter<'_>) -> fmt::Result {
                self.0.fmt(f)
            }
        }
    };
}

unit! {
    /// Money in cents.
    ///
    /// ```
    /// use finaruvom::Cents;
    ///
    /// assert_eq!(Cents(900).checked_add(Cents(100)), Some(Cents(1_000)));
    /// assert_eq!(Cents(1).checked_add(Cents(u64::MAX)), None);
    /// assert_eq!(Cents::from(900).to_string(), "900");
    /// ```
    ///
    /// A sum of cents and seconds does not compile:
    ///
    /// ```compile_fail,E0308
    /// use finaruvom::{Cents, Seconds};
    ///
    /// let sum = Cents(900).checked_add(Seconds(100));
    /// ```
    Cents
}

unit! {
    /// A number of seconds: a time from 1970-01-01 on, or a span.
    ///
    /// ```
    /// use finaruvom::Seconds;
    ///
    /// assert_eq!(Seconds(1_000).checked_add(Seconds(3_600)), Some(Seconds(4_600)));
    /// assert!(Seconds(4_599) < Seconds(4_600));
    /// ```
    ///
    /// A comparison of seconds and cents does not compile:
    ///
    /// ```compile_fail,E0308
    /// use finaruvom::{Cents, Seconds};
    ///
    /// assert!(Seconds(4_599) < Cents(4_600));
    /// ```
    Seconds
}
