//! Payments collected, written and read by library and oracle, on memory between guard bytes.

mod wrapped;

use crate::bridge::bank::{from_line, to_counted, to_lines, to_list};
use crate::fence::Fenced;
use crate::kinds::bank::{rooms, Call, Seen};
use crate::pair::{hex, same, Outcome};
use crate::tally::Tally;
use finaruvom::raw;
use oracle::bank::{Counted, Payment, ENTRY};

/// Collects into the list with both, and gives the answer.
pub fn collect(
    commands: &[u8],
    lines: &[raw::Line],
    list: &mut [Payment],
    tally: &mut Tally,
) -> Result<Counted, String> {
    let (mut given, mut beside) = (anywhere(commands), aligned(to_lines(lines)));
    let mut lent = aligned(to_list(list));
    // SAFETY: commands and lines are readable, and the list is writable.
    let library = unsafe {
        raw::finaruvom_collect(
            given.pointer(),
            commands.len(),
            beside.pointer(),
            lines.len(),
            lent.pointer(),
            list.len(),
        )
    };
    let answers: Vec<_> = lines.iter().map(from_line).collect();
    let oracle = oracle::bank::collect(commands, &answers, list);
    let needs = to_collect(commands, &answers);
    met(tally, Call::Collect, &oracle, (needs, list.len()));
    agree(&library, &oracle, &lent, &to_list(list))
        .and_then(|()| untouched(&[&given, &beside]))
        .map_err(|text| format!("collect: {text}\ncommands: {}\n{lines:?}", hex(commands)))?;
    Ok(oracle)
}

/// Collects a run's own lines, with the wrapper too.
pub fn collect_run(
    commands: &[u8],
    lines: &[finaruvom::Line],
    list: &mut [Payment],
    tally: &mut Tally,
) -> Result<Counted, String> {
    let raw = |line: &finaruvom::Line| raw::Line {
        answer: *line.answer.as_raw(),
    };
    let raw: Vec<raw::Line> = lines.iter().map(raw).collect();
    let oracle = collect(commands, &raw, list, tally)?;
    wrapped::collect(commands, lines, (&oracle, list))?;
    Ok(oracle)
}

/// Writes the list with both, and gives the answer.
pub fn write(list: &[Payment], buffer: &mut [u8], tally: &mut Tally) -> Result<Counted, String> {
    let (mut given, mut lent) = (aligned(to_list(list)), anywhere(buffer));
    // SAFETY: the list is readable and the buffer writable.
    let library =
        unsafe { raw::finaruvom_write(given.pointer(), list.len(), lent.pointer(), buffer.len()) };
    let former = buffer.to_vec();
    let oracle = oracle::bank::write(list, buffer);
    let room = (ENTRY * list.len(), buffer.len());
    met(tally, Call::Write, &oracle, room);
    agree(&library, &oracle, &lent, buffer)
        .and_then(|()| untouched(&[&given]))
        .and_then(|()| wrapped::write(list, former, (&oracle, buffer)))
        .map_err(|text| format!("write: {text}\nlist: {list:?}"))?;
    Ok(oracle)
}

/// Reads into the list with both, and gives the answer.
pub fn read(bytes: &[u8], list: &mut [Payment], tally: &mut Tally) -> Result<Counted, String> {
    let (mut given, mut lent) = (anywhere(bytes), aligned(to_list(list)));
    // SAFETY: the bytes are readable and the list writable.
    let library = unsafe {
        raw::finaruvom_read_payments(given.pointer(), bytes.len(), lent.pointer(), list.len())
    };
    let oracle = oracle::bank::read(bytes, list);
    let room = (bytes.len() / ENTRY, list.len());
    met(tally, Call::Read, &oracle, room);
    agree(&library, &oracle, &lent, &to_list(list))
        .and_then(|()| untouched(&[&given]))
        .and_then(|()| wrapped::read(bytes, (&oracle, list)))
        .map_err(|text| format!("read: {text}\nbytes: {}", hex(bytes)))?;
    Ok(oracle)
}

/// How many payments there are to collect.
fn to_collect(commands: &[u8], lines: &[oracle::Answer]) -> usize {
    let none = Payment {
        party: 0,
        channel: 0,
        amount: 0,
    };
    let mut list = vec![none; 2 * lines.len()];
    oracle::bank::collect(commands, lines, &mut list).payments
}

/// Counts a call by the room that it needs and has.
fn met(tally: &mut Tally, call: Call, counted: &Counted, (needs, has): (usize, usize)) {
    let seen = Seen {
        call,
        refusal: counted.refusal,
        needs,
        has,
    };
    rooms(&seen).for_each(|kind| tally.compared(kind));
}

/// Whether answer and lent memory are the oracle's, and the memory's neighbours as they were.
fn agree(library: &raw::Counted, oracle: &Counted, lent: &Fenced, expected: &[u8]) -> Outcome {
    same("answer", library, &to_counted(oracle))?;
    if lent.bytes() != expected {
        return same("lent", &hex(lent.bytes()), &hex(expected));
    }
    match lent.intact() {
        true => Ok(()),
        false => Err("a neighbour of what was lent was written".to_string()),
    }
}

/// Whether what was only to be read is as it was.
fn untouched(read: &[&Fenced]) -> Outcome {
    match read.iter().all(|memory| memory.untouched()) {
        true => Ok(()),
        false => Err("what was only to be read was written".to_string()),
    }
}

/// Memory that starts at a multiple of eight.
fn aligned(bytes: Vec<u8>) -> Fenced {
    Fenced::new(bytes, 0)
}

/// Memory that starts anywhere, by its length.
fn anywhere(bytes: &[u8]) -> Fenced {
    Fenced::new(bytes.to_vec(), bytes.len() % 8)
}
