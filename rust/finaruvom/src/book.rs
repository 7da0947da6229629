//! The book and the commands on it.
use crate::answer::Answer;
use crate::date::Date;
use crate::linked::same_layout;
use crate::raw;
use crate::refusal::Refusal;
use crate::settings::Settings;
use crate::sizes::{CHANNELS, DIGEST_SIZE, ID_SIZE, KEY_SIZE, MOST_DATES};
use crate::units::{Cents, Seconds};

/// A book of 64 channels.
///
/// ```
/// use finaruvom::command::{Establish, FundCustomer};
/// use finaruvom::{Book, Cents, Status};
/// # use finaruvom::Refusal;
/// # let [customer_key, merchant_key] = [1, 2].map(|byte| {
/// #     let mut key = [byte; 56];
/// #     key[..8].copy_from_slice(&[0, 0, 0, 6, 0, 0, 0, 4]);
/// #     key
/// # });
///
/// let mut book = Book::open(&[7; 16])?;
/// let establish = Establish {
///     channel: 0,
///     customer_key,
///     merchant_key,
///     customer: Cents(900),
///     merchant: Cents(100),
///     delay: 3_600,
/// };
/// assert_eq!(book.apply(&establish.command()).refused(), None);
/// let fund = FundCustomer { channel: 0, amount: Cents(900) };
/// assert_eq!(book.apply(&fund.command()).refused(), None);
/// let reading = book.read(0)?;
/// assert_eq!(reading.status, Status::AwaitingMerchant);
/// assert_eq!(reading.held, Cents(900));
/// # Ok::<(), Refusal>(())
/// ```
///
/// A second book is made by `clone` alone. This does not compile:
///
/// ```compile_fail,E0382
/// let book = finaruvom::Book::open(&[7; 16]).unwrap();
/// let other = book;
/// assert_eq!(other, book);
/// ```
#[repr(transparent)]
#[derive(Clone, Debug, PartialEq, Eq)]
pub struct Book {
    pub(crate) raw: raw::Book,
}

impl Book {
    /// A fresh book with this id, by the plain opening: a delay of 0 stands for a day, there is no
    /// fee, and no day is shut.
    ///
    /// # Errors
    ///
    /// [`Refusal::Length`] where the id is not [`ID_SIZE`] bytes long.
    pub fn open(id: &[u8]) -> Result<Book, Refusal> {
        let mut book = Book::from_raw(UNOPENED);
        book.reopen(id)?;
        Ok(book)
    }

    /// A fresh book with this id and these settings.
    ///
    /// ```
    /// use finaruvom::{Book, Date, Refusal, Settings};
    ///
    /// let book = Book::open_with(&[7; 16], &Settings::desk())?;
    /// assert_eq!(book.default_delay().0, 172_800);
    /// let hour = Settings::default().with_delay(3_600);
    /// assert!(Book::open_with(&[7; 16], &hour).is_ok());
    /// let less = Settings::default().with_delay(3_599);
    /// assert_eq!(Book::open_with(&[7; 16], &less), Err(Refusal::SettingsDelay));
    ///
    /// // A fortieth of what a merchant is paid, and more than a tenth.
    /// let fee = Settings::desk().with_fee(250);
    /// assert_eq!(Book::open_with(&[7; 16], &fee)?.fee(), 250);
    /// let more = Settings::desk().with_fee(1_001);
    /// assert_eq!(Book::open_with(&[7; 16], &more), Err(Refusal::SettingsFee));
    ///
    /// // Shut on Saturdays, Sundays and two dates.
    /// let holidays = [Date::new(2026, 12, 25), Date::new(2027, 1, 1)];
    /// let shut = Settings::desk().with_dates(&holidays);
    /// let book = Book::open_with(&[7; 16], &shut)?;
    /// assert!(book.dates().is_some_and(|dates| dates.eq(holidays)));
    /// let falling = [holidays[1], holidays[0]];
    /// let shut = Settings::desk().with_dates(&falling);
    /// assert_eq!(Book::open_with(&[7; 16], &shut), Err(Refusal::SettingsDates));
    /// # Ok::<(), Refusal>(())
    /// ```
    ///
    /// # Errors
    ///
    /// In this order: [`Refusal::Length`] where the id is not [`ID_SIZE`] bytes long,
    /// [`Refusal::SettingsDelay`] where the default delay is not 3,600 to 2,592,000,
    /// [`Refusal::SettingsFee`] where the fee is above [`HIGHEST_FEE`](crate::HIGHEST_FEE),
    /// [`Refusal::SettingsDate`] where a date does not exist or its year is not 1970 to 2399,
    /// [`Refusal::SettingsDates`] where there are more than [`MOST_DATES`], or one is not later
    /// than the one before it.
    pub fn open_with(id: &[u8], settings: &Settings<'_>) -> Result<Book, Refusal> {
        let mut book = Book::from_raw(UNOPENED);
        book.reopen_with(id, settings)?;
        Ok(book)
    }

    /// Makes this book fresh by the plain opening, whatever it holds.
    ///
    /// # Errors
    ///
    /// [`Refusal::Length`] where the id is not [`ID_SIZE`] bytes long; the book keeps every value.
    pub fn reopen(&mut self, id: &[u8]) -> Result<(), Refusal> {
        // SAFETY: the book is lent exclusively and the slice is readable.
        let number = unsafe { raw::finaruvom_open(&raw mut self.raw, id.as_ptr(), id.len()) };
        Refusal::checked(number)
    }

    /// Makes this book fresh with these settings, whatever it holds.
    ///
    /// # Errors
    ///
    /// As [`Book::open_with`]; the book keeps every value.
    pub fn reopen_with(&mut self, id: &[u8], settings: &Settings<'_>) -> Result<(), Refusal> {
        let dates = settings.dates.unwrap_or_default();
        // SAFETY: the book is lent exclusively, the slices are readable, and a date is laid out as
        // its number.
        let number = unsafe {
            raw::finaruvom_open_with(
                &raw mut self.raw,
                id.as_ptr(),
                id.len(),
                settings.to_raw(),
                dates.as_ptr().cast(),
                dates.len(),
            )
        };
        Refusal::checked(number)
    }

    /// Carries a command out, or refuses it and keeps every value.
    ///
    /// ```
    /// use finaruvom::command::SetClock;
    /// use finaruvom::{Book, Refusal, Seconds};
    ///
    /// let mut book = Book::open(&[7; 16])?;
    /// let answer = book.apply(&SetClock { time: Seconds(1_000) }.command());
    /// assert_eq!(answer.refused(), None);
    /// let answer = book.apply(&SetClock { time: Seconds(999) }.command());
    /// assert_eq!(answer.refused(), Some(Refusal::Time));
    /// assert_eq!(book.clock(), Seconds(1_000));
    /// # Ok::<(), Refusal>(())
    /// ```
    pub fn apply(&mut self, command: &[u8]) -> Answer {
        // SAFETY: the book is lent exclusively and the slice is readable.
        let answer =
            unsafe { raw::finaruvom_apply(&raw mut self.raw, command.as_ptr(), command.len()) };
        Answer::of_library(answer)
    }

    /// The id, a part of every signed message.
    #[must_use]
    pub const fn id(&self) -> &[u8; ID_SIZE] {
        &self.raw.id
    }

    /// What a delay of 0 stands for in this book. A journal does not carry it: record it beside.
    #[must_use]
    pub const fn default_delay(&self) -> Seconds {
        Seconds(self.raw.setup.delay as u64)
    }

    /// Ten-thousandths of each payment to a merchant that the desk keeps. A journal does not carry
    /// it: record it beside.
    #[must_use]
    pub const fn fee(&self) -> u32 {
        self.raw.setup.fee
    }

    /// The dates that the book was opened with: no deadline falls on one of these, on a Saturday or
    /// on a Sunday. None where it was opened without a list: then no day is shut. Of an unsound book
    /// those that are dates. A journal does not carry them: record them beside.
    #[must_use]
    pub fn dates(&self) -> Option<impl Iterator<Item = Date> + '_> {
        let raw::Setup {
            days, count, dated, ..
        } = &self.raw.setup;
        let counted = days.iter().take(*count as usize);
        let dates = counted.filter_map(|day| Date::of_day(u64::from(*day)));
        (*dated == 1).then_some(dates)
    }

    /// The clock.
    #[must_use]
    pub const fn clock(&self) -> Seconds {
        self.raw.clock
    }

    /// A book with these values. Any may stand in it: an unsound one is refused with
    /// [`Refusal::Unsound`].
    #[must_use]
    pub fn from_raw(raw: raw::Book) -> Book {
        same_layout();
        Book { raw }
    }

    /// The values.
    #[must_use]
    pub const fn as_raw(&self) -> &raw::Book {
        &self.raw
    }
}

/// Zeros, for an opening to write over.
const UNOPENED: raw::Book = {
    let party = raw::Party {
        key: [0; KEY_SIZE],
        deposit: Cents(0),
    };
    let channel = raw::Channel {
        customer: party,
        merchant: party,
        deadline: Seconds(0),
        kept: Cents(0),
        delay: 0,
        status: 0,
        lock: [0; DIGEST_SIZE],
        leaves: raw::Leaves {
            first: 0,
            second: 0,
        },
    };
    raw::Book {
        mark: 0,
        id: [0; ID_SIZE],
        setup: raw::Setup {
            delay: 0,
            fee: 0,
            days: [0; MOST_DATES],
            count: 0,
            dated: 0,
        },
        clock: Seconds(0),
        channels: [channel; CHANNELS],
    }
};
