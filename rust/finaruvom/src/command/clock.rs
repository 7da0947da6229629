//! The command that sets the clock.
use super::writer::Writer;
use crate::units::Seconds;

/// 01: sets the clock, which never goes back.
///
/// ```
/// use finaruvom::command::SetClock;
/// use finaruvom::Seconds;
///
/// let command = SetClock { time: Seconds(1_000) }.command();
/// assert_eq!(command, [0x01, 0, 0, 0, 0, 0, 0, 0x03, 0xe8]);
/// ```
#[derive(Clone, Copy, Debug, PartialEq, Eq, Hash)]
pub struct SetClock {
    /// The time.
    pub time: Seconds,
}

impl SetClock {
    /// The command.
    #[must_use]
    pub fn command(&self) -> [u8; 9] {
        let time = self.time.0.to_be_bytes();
        Writer::new(0x01).bytes(&time).done()
    }
}
