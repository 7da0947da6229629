//! A run over a journal, and the statement program.
use crate::book::Book;
use crate::command::length;
use crate::machine::{apply, Answer};
use std::fmt::Write;

/// How far a run came.
#[derive(Clone, Copy, Debug, PartialEq, Eq)]
pub struct Ran {
    /// Lines written.
    pub lines: usize,
    /// Bytes used.
    pub used: usize,
    /// 0 no bytes left, 13 no line left, 1 first byte unknown, 2 fewer bytes than the command
    /// needs.
    pub cause: u8,
}

/// Runs the commands, one line for each.
pub fn run(book: &mut Book, commands: &[u8], lines: &mut [Answer]) -> Ran {
    let mut ran = Ran {
        lines: 0,
        used: 0,
        cause: 0,
    };
    loop {
        let rest = &commands[ran.used..];
        match next(rest, ran.lines < lines.len()) {
            Ok(command) => {
                lines[ran.lines] = apply(book, command);
                ran.lines += 1;
                ran.used += command.len();
            }
            Err(cause) => {
                ran.cause = cause;
                return ran;
            }
        }
    }
}

/// The next command, or the cause to stop.
pub(crate) fn next(rest: &[u8], line_left: bool) -> Result<&[u8], u8> {
    let &first = rest.first().ok_or(0)?;
    if !line_left {
        return Err(13);
    }
    let length = length(first).ok_or(1)?;
    rest.get(..length).ok_or(2)
}

/// What the statement program prints for this input.
pub fn statement(input: &[u8]) -> String {
    if input.len() > 65_536 {
        return "too long\n".to_string();
    }
    let Some((id, journal)) = input.split_first_chunk::<16>() else {
        return "no book\n".to_string();
    };
    let mut lines = vec![Answer::default(); journal.len()];
    let ran = run(&mut Book::fresh(*id), journal, &mut lines);
    let mut text = String::new();
    for (number, line) in (1..).zip(&lines[..ran.lines]) {
        let Answer {
            refusal,
            customer,
            merchant,
            steps,
            fee,
        } = line;
        writeln!(
            text,
            "{number} {refusal} {customer} {merchant} {steps} {fee}"
        )
        .unwrap();
    }
    writeln!(text, "end {} {}", ran.used, ran.cause).unwrap();
    text
}
