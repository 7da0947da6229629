//! A run over a journal.
use crate::answer::Answer;
use crate::book::Book;
use crate::numbered::{named, numbered};
use crate::raw;

numbered! {
    /// Why a run stopped.
    ///
    /// ```
    /// use finaruvom::{Cause, UnknownNumber};
    ///
    /// assert_eq!(Cause::NoLine.number(), 13);
    /// assert_eq!(Cause::NoLine.to_string(), "no line left");
    /// assert_eq!(Cause::try_from(2), Ok(Cause::CutShort));
    /// assert_eq!(Cause::try_from(3), Err(UnknownNumber(3)));
    /// ```
    Cause: u8 {
        NoBytes = 0: "no bytes left",
        NoLine = 13: "no line left",
        UnknownByte = 1: "the first byte is no command",
        CutShort = 2: "fewer bytes than the command needs",
    }
}

/// A line of a run: the answer to one command.
///
/// The default is the answer of an accepted command that paid nothing. Only as many lines as
/// [`Ran::lines`] says are a run's; those behind keep what they held.
#[repr(C)]
#[derive(Clone, Copy, Debug, Default, PartialEq, Eq, Hash)]
pub struct Line {
    /// The command's answer.
    pub answer: Answer,
}

const _: () = {
    assert!(size_of::<Line>() == size_of::<raw::Line>());
    assert!(align_of::<Line>() == align_of::<raw::Line>());
};

/// How far a run came.
#[must_use]
#[derive(Clone, Copy, Debug, PartialEq, Eq, Hash)]
pub struct Ran {
    /// Lines written.
    pub lines: usize,
    /// Bytes used.
    pub used: usize,
    /// Why it stopped.
    pub cause: Cause,
}

impl Book {
    /// Runs a journal's commands and writes a line for each; later lines keep their content.
    ///
    /// ```
    /// use finaruvom::command::{SetClock, Settle};
    /// use finaruvom::{Book, Cause, Line, Ran, Refusal, Seconds};
    ///
    /// let mut book = Book::open(&[7; 16])?;
    /// let clock = SetClock { time: Seconds(1_000) }.command();
    /// let journal = [&clock[..], &Settle { channel: 0 }.command()].concat();
    /// let mut lines = [Line::default(); 4];
    /// let ran = book.run(&journal, &mut lines);
    /// assert_eq!(ran, Ran { lines: 2, used: 12, cause: Cause::NoBytes });
    /// assert_eq!(lines[0].answer.refused(), None);
    /// assert_eq!(lines[1].answer.refused(), Some(Refusal::Status));
    /// # Ok::<(), Refusal>(())
    /// ```
    pub fn run(&mut self, commands: &[u8], lines: &mut [Line]) -> Ran {
        // SAFETY: book and lines are lent exclusively, a line is laid out as the boundary's, and
        // the commands are readable.
        let ran = unsafe {
            raw::finaruvom_run(
                &raw mut self.raw,
                commands.as_ptr(),
                commands.len(),
                lines.as_mut_ptr().cast(),
                lines.len(),
            )
        };
        Ran {
            lines: ran.lines,
            used: ran.used,
            cause: named(ran.cause),
        }
    }
}
