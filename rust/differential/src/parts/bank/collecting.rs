//! Collecting from commands and lines of any kind.
use super::answered;
use super::arbitrary::{channel, line, room, wild};
use crate::kinds::bank::{paid, Beside, ENDS};
use crate::pair::Outcome;
use crate::payments::collect;
use crate::rng::Rng;
use crate::tally::Tally;
use finaruvom::raw::Line;

/// Few commands and lines, at times many, with each end.
pub fn case(rng: &mut Rng, tally: &mut Tally) -> Outcome {
    for (end, kind) in ENDS.into_iter().enumerate() {
        let count = if rng.one_in(16) { 300 } else { rng.below(6) };
        let whole: Vec<_> = (0..count).map(|_| command(rng)).collect();
        let mut lines: Vec<_> = whole.iter().map(|_| line(rng)).collect();
        let needs = paying(&whole, &lines);
        let mut commands = whole.concat();
        commands.extend(behind(rng, end));
        if end != 1 {
            lines.extend([(); 2].map(|()| line(rng)));
        }
        for room in [needs, room(rng, needs), room(rng, needs), room(rng, needs)] {
            let counted = collect(&commands, &lines, &mut wild(rng, room), tally)?;
            match room < needs {
                true => answered(kind, counted, 18, 0)?,
                false => answered(kind, counted, 0, needs)?,
            }
        }
        tally.compared(kind);
        besides(&whole, &lines).for_each(|beside| paid(&beside).for_each(|it| tally.compared(it)));
    }
    Ok(())
}

/// What stands behind the commands that have a line: nothing, more of them, an unknown byte with
/// more behind it, or a cut command.
fn behind(rng: &mut Rng, end: usize) -> Vec<u8> {
    let mut next = command(rng);
    match end {
        0 => next.clear(),
        1 => {}
        2 => next.insert(0, rng.pick(&[0, 11, 0x81, 0xff])),
        _ => next.truncate(1 + rng.below(next.len() - 1)),
    }
    next
}

/// A command of whole length with any operands, mostly a short one.
fn command(rng: &mut Rng) -> Vec<u8> {
    let any = 1 + rng.below(10) as u8;
    let first = rng.pick(&[1, 3, 4, 10, 10, 10, any]);
    let mut bytes = rng.bytes(oracle::length(first).expect("a command"));
    let n = channel(rng) as u16;
    bytes[0] = first;
    bytes[1..3].copy_from_slice(&n.to_be_bytes());
    bytes
}

/// The commands and their lines side by side.
fn besides<'a>(
    commands: &'a [Vec<u8>],
    lines: &'a [Line],
) -> impl Iterator<Item = Beside> + use<'a> {
    let beside = |(command, line): (&Vec<u8>, &Line)| Beside {
        opcode: command[0],
        n: u16::from_be_bytes([command[1], command[2]]),
        line: *line,
    };
    commands.iter().zip(lines).map(beside)
}

/// How many payments there are: those of each line above zero, but for 01.
fn paying(commands: &[Vec<u8>], lines: &[Line]) -> usize {
    let others = besides(commands, lines).filter(|beside| beside.opcode != 1);
    let amounts = others.flat_map(|beside| {
        let answer = beside.line.answer;
        [answer.customer.0, answer.merchant.0]
    });
    amounts.filter(|amount| *amount > 0).count()
}
