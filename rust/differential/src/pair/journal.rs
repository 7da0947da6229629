//! Readings, the due list and runs of both books.
use super::{hex, same, Outcome, Pair};
use crate::bridge::{to_line, to_ran, to_read, to_reading};
use crate::tally::Tally;
use finaruvom::raw::{self, Found, Line, Ran};
use finaruvom::Book;

impl Pair {
    /// Reads every channel, numbers behind the last one, and what is due.
    pub fn read(&self, tally: &mut Tally) -> Outcome {
        for n in (0..=66).chain([256, 65_535, 65_536, 1 << 32, usize::MAX]) {
            let oracle = oracle::read(&self.oracle, n);
            // SAFETY: the book is readable.
            let raw = unsafe { raw::finaruvom_read(self.library.as_raw(), n) };
            same(&format!("reading of {n}"), &raw, &to_reading(&oracle))?;
            same(
                &format!("read of {n}"),
                &self.library.read(n),
                &to_read(&oracle),
            )?;
            tally.compared("readings");
        }
        self.due(tally).map(|_| ())
    }

    /// Asks both for the channel that is due, and gives it.
    pub fn due(&self, tally: &mut Tally) -> Result<Option<u8>, String> {
        let due = oracle::due(&self.oracle);
        same("due", &self.library.due(), &due)?;
        let found = Found {
            some: due.is_some(),
            channel: due.unwrap_or(0),
        };
        // SAFETY: the book is readable.
        let raw = unsafe { raw::finaruvom_due(self.library.as_raw()) };
        tally.compared(if found.some { "due" } else { "due none" });
        same("found", &raw, &found)?;
        Ok(due)
    }

    /// Runs a journal over the lines that stand there; gives how far it came.
    pub fn run(
        &mut self,
        commands: &[u8],
        lines: &mut [Line],
        tally: &mut Tally,
    ) -> Result<Ran, String> {
        let before = self.library.clone();
        let mut expected_lines = lines.to_vec();
        let ran = self.run_library(commands, lines);
        let mut answers = vec![oracle::Answer::default(); lines.len()];
        let expected = oracle::run(&mut self.oracle, commands, &mut answers);
        for (line, answer) in expected_lines.iter_mut().zip(&answers[..expected.lines]) {
            *line = to_line(answer);
        }
        tally.compared(match expected.cause {
            0 => "runs to the end",
            13 => "runs short of lines",
            1 => "runs to an unknown byte",
            _ => "runs to a cut command",
        });
        same("run", &ran, &to_ran(&expected))
            .and_then(|()| same("lines", &&*lines, &&*expected_lines))
            .and_then(|()| self.agree(before.as_raw()))
            .and_then(|()| self.run_wrapped(before, commands, lines, &ran))
            .map_err(|text| format!("{text}\ncommands: {}", hex(commands)))?;
        Ok(ran)
    }

    /// Runs the library's book alone.
    fn run_library(&mut self, commands: &[u8], lines: &mut [Line]) -> Ran {
        let mut book = self.library.as_raw().clone();
        // SAFETY: book and lines are lent exclusively and the commands are readable.
        let ran = unsafe {
            raw::finaruvom_run(
                &mut book,
                commands.as_ptr(),
                commands.len(),
                lines.as_mut_ptr(),
                lines.len(),
            )
        };
        self.library = Book::from_raw(book);
        ran
    }

    /// Whether the wrapper makes the same of a run from the book before.
    fn run_wrapped(&self, before: Book, commands: &[u8], lines: &[Line], ran: &Ran) -> Outcome {
        let mut book = before;
        let mut wrapped = vec![finaruvom::Line::default(); lines.len()];
        let end = book.run(commands, &mut wrapped);
        let end = Ran {
            lines: end.lines,
            used: end.used,
            cause: u64::from(end.cause.number()),
        };
        let raw = |line: &finaruvom::Line| *line.answer.as_raw();
        let wrapped: Vec<_> = wrapped.iter().map(raw).collect();
        let mut expected: Vec<_> = lines.iter().map(|line| line.answer).collect();
        expected[ran.lines..].fill(raw::Answer::default());
        same("wrapped run", &end, ran)?;
        same("wrapped lines", &wrapped, &expected)?;
        same("wrapped book", &book, &self.library)
    }
}
