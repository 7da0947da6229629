//! Enums whose variants have the numbers of the header.
use core::error::Error;
use core::fmt;

/// A number that none of the variants has.
#[derive(Clone, Copy, Debug, PartialEq, Eq, Hash)]
pub struct UnknownNumber(
    /// The number.
    pub u8,
);

impl fmt::Display for UnknownNumber {
    fn fmt(&self, f: &mut fmt::Formatter<'_>) -> fmt::Result {
        write!(f, "unknown number {}", self.0)
    }
}

impl Error for UnknownNumber {}

/// The variant that a number of the library stands for; its contracts promise that there is one.
pub(crate) fn named<T: TryFrom<u8>>(number: impl TryInto<u8>) -> T {
    let number = number.try_into().ok();
    number
        .and_then(|number| T::try_from(number).ok())
        .expect("the library answers the header's numbers alone")
}

/// Declares an enum by its type in memory, its variants, their numbers and what they mean in words.
macro_rules! numbered {
    (
        $(#[$attribute:meta])*
        $name:ident: $type:ident { $($variant:ident = $number:literal: $words:literal,)+ }
    ) => {
        $(#[$attribute])*
        #[repr($type)]
        #[derive(Clone, Copy, Debug, PartialEq, Eq, Hash)]
        pub enum $name {
            $(
                #[doc = concat!(stringify!($number), ": ", $words, ".")]
                $variant = $number,
            )+
        }

        impl $name {
            /// The number.
            #[must_use]
            pub const fn number(self) -> u8 {
                self as u8
            }
        }

        impl TryFrom<u8> for $name {
            type Error = $crate::UnknownNumber;

            fn try_from(number: u8) -> Result<Self, Self::Error> {
                match number {
                    $($number => Ok(Self::$variant),)+
                    other => Err($crate::UnknownNumber(other)),
                }
            }
        }

        impl core::fmt::Display for $name {
            fn fmt(&self, f: &mut core::fmt::Formatter<'_>) -> core::fmt::Result {
                f.pad(match self {
                    $(Self::$variant => $words,)+
                })
            }
        }
    };
}

pub(crate) use numbered;
