//! Closings around shut days, and what can be filed at their deadlines.
use super::desk::Desk;
use super::rightly;
use super::scenes::SCENES;
use crate::arbitrary::dates::{any_good, number};
use crate::kinds::days::{
    ANSWERED, DISPUTED, EQUAL, NOT_ANSWERED, NOT_DISPUTED, SETTLED, SETTLED_LATER, STILL_EARLY,
    TOO_EARLY, UNCOUNTED, UNLISTED,
};
use crate::pair::{same, Outcome, Pair};
use crate::parts::World;
use crate::rng::Rng;
use finaruvom::raw::Setup;
use oracle::{DAY, DAYS, LARGEST};
use std::cmp::Ordering;

/// Cases in a row that have every scene together, as many as a run has at least.
const CASES: usize = 20;

/// Ways to close: by the merchant, by the customer, and by the customer in answer.
const WAYS: [&[u8]; 3] = [&[8], &[7], &[8, 7]];

/// Every twentieth scene, from one on that the seed decides, and some that are not written out.
pub fn case(rng: &mut Rng, world: &mut World) -> Outcome {
    let first = (rng.seed() % CASES as u64) as usize;
    for (name, list, falls, deadline) in SCENES.into_iter().skip(first).step_by(CASES) {
        for way in WAYS {
            let closed = closed(rng, list.dates(), falls, way, world)
                .and_then(|desk| same("deadline", &desk.deadline(), &deadline));
            closed.map_err(|text| format!("{name}, {way:?}: {text}"))?;
        }
    }
    for _ in 0..3 {
        let (around, way) = (rng.below(400) as u32, rng.pick(&WAYS));
        let falls = DAY * u64::from(around + 1) + rng.pick(&[0, 1, DAY / 2, DAY - 1]);
        let dates = any_good(rng, around);
        closed(rng, dates, falls, way, world)?;
    }
    unlisted(rng, world)?;
    equal(rng, world)
}

/// Closes a channel in this way, with a deadline that falls on this second, and files what can be
/// filed around its deadline.
fn closed(
    rng: &mut Rng,
    dates: Option<Vec<u32>>,
    falls: u64,
    way: &[u8],
    world: &mut World,
) -> Result<Desk, String> {
    let mut desk = Desk::new(rng, dates.clone(), falls, world)?;
    for opcode in way {
        desk.accepted(*opcode, 0, world)?;
        rightly::moved(dates.as_deref(), falls, desk.deadline())?;
    }
    desk.pair.read(&mut world.tally)?;
    settlings(&desk, world)?;
    answers(&desk, way, world)?;
    world.tally.compared("closings around shut days");
    Ok(desk)
}

/// The desk at another time, where the clock comes there.
fn at(desk: &Desk, time: u64, world: &mut World) -> Result<Option<Desk>, String> {
    if !(desk.pair.oracle.clock..=LARGEST).contains(&time) {
        return Ok(None);
    }
    let mut desk = desk.clone();
    desk.accepted(1, time, world)?;
    desk.pair.read(&mut world.tally)?;
    Ok(Some(desk))
}

/// Settles before the deadline, which is refused, at it and after it.
fn settlings(desk: &Desk, world: &mut World) -> Outcome {
    let (falls, deadline) = (desk.falls, desk.deadline());
    let mut times = vec![
        (deadline - 1, 9, TOO_EARLY),
        (deadline, 0, SETTLED),
        (deadline + 1, 0, SETTLED_LATER),
    ];
    if falls < deadline {
        times.push((falls, 9, STILL_EARLY));
    }
    for (time, refusal, kind) in times {
        if let Some(mut desk) = at(desk, time, world)? {
            let answer = desk.file(0x0a, 0, world)?;
            same(&format!("0A at {time}"), &answer, &refusal)?;
            met(falls < deadline, kind, world);
        }
    }
    Ok(())
}

/// Answers an 08, or disputes a 07, a second before the deadline, and at it and after it, which is
/// refused.
fn answers(desk: &Desk, way: &[u8], world: &mut World) -> Outcome {
    let (falls, deadline) = (desk.falls, desk.deadline());
    let (opcode, kinds) = match way {
        [8] => (7, [ANSWERED, NOT_ANSWERED]),
        _ => (9, [DISPUTED, NOT_DISPUTED]),
    };
    for (time, refusal, kind) in [
        (deadline - 1, 0, kinds[0]),
        (deadline, 9, kinds[1]),
        (deadline + 1, 9, kinds[1]),
    ] {
        if let Some(mut desk) = at(desk, time, world)? {
            let answer = desk.file(opcode, 0, world)?;
            same(&format!("{opcode:02X} at {time}"), &answer, &refusal)?;
            met(falls < deadline, kind, world);
        }
    }
    Ok(())
}

/// Counts what was met at a deadline that was moved.
fn met(moved: bool, kind: &'static str, world: &mut World) {
    if moved {
        world.tally.compared(kind);
    }
}

/// A day that stands in a book which has no list, or behind those that are counted, is not shut.
fn unlisted(rng: &mut Rng, world: &mut World) -> Outcome {
    let changes: [(_, fn(&mut Setup)); 2] = [
        (UNLISTED, |setup| setup.dated = 0),
        (UNCOUNTED, |setup| setup.count = 0),
    ];
    for (kind, change) in changes {
        let day = weekday(rng);
        let falls = DAY * u64::from(day) + rng.below(DAY as usize) as u64;
        let mut desk = Desk::new(rng, Some(vec![number(day)]), falls, world)?;
        let mut raw = desk.pair.library.as_raw().clone();
        change(&mut raw.setup);
        desk.pair = Pair::new(raw);
        desk.accepted(8, 0, world)?;
        same(kind, &desk.deadline(), &falls)?;
        world.tally.compared(kind);
    }
    Ok(())
}

/// A day from Monday to Friday.
fn weekday(rng: &mut Rng) -> u32 {
    let week = 1 + rng.below(DAYS as usize / 7 - 2) as u32;
    7 * week + rng.pick(&[0, 1, 4, 5, 6])
}

/// Two channels whose deadlines fall on different seconds of a weekend are both due on Monday: that
/// with the larger sum first, and the lower number where the sums are equal.
fn equal(rng: &mut Rng, world: &mut World) -> Outcome {
    let mut desk = Desk::new(rng, Some(Vec::new()), 172_800, world)?;
    let (first, clock) = (desk.n, desk.pair.oracle.clock);
    let first_sum = closed_for_monday(&mut desk, rng.pick(&WAYS), world)?;
    desk.another(world)?;
    let later = 1 + rng.below(172_799) as u64;
    desk.accepted(1, clock + later, world)?;
    let sum = closed_for_monday(&mut desk, rng.pick(&WAYS), world)?;
    let due = match first_sum.cmp(&sum) {
        Ordering::Greater => first,
        Ordering::Equal => first.min(desk.n),
        Ordering::Less => desk.n,
    };
    same("due", &desk.pair.library.due(), &Some(due as u8))?;
    world.tally.compared(EQUAL);
    desk.pair.read(&mut world.tally)
}

/// Closes the channel in this way, with a deadline on the first Monday, and gives what it holds: the
/// total where the merchant closes alone, a third of it where the customer does.
fn closed_for_monday(desk: &mut Desk, way: &[u8], world: &mut World) -> Result<u64, String> {
    for opcode in way {
        desk.accepted(*opcode, 0, world)?;
        same("deadline", &desk.deadline(), &345_600)?;
    }
    Ok(match way {
        [8] => desk.total(),
        _ => desk.total() / 3,
    })
}
