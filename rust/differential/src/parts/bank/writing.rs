//! Writing: lists that entries hold, lists with one payment that none holds, and any lists.
use super::answered;
use super::arbitrary::{payments, room, wild};
use crate::kinds::bank::{READ_BACK, UNWRITABLE};
use crate::pair::{same, Outcome};
use crate::payments::{read, write};
use crate::rng::Rng;
use crate::tally::Tally;
use oracle::bank::{Payment, ENTRY};

/// A short list, each way to spoil a payment, and any lists.
pub fn case(rng: &mut Rng, tally: &mut Tally) -> Outcome {
    let count = rng.below(5);
    held(rng, count, tally)?;
    for (kind, spoil) in UNWRITABLE {
        spoilt(rng, spoil, tally).map_err(|text| format!("{kind}: {text}"))?;
        tally.compared(kind);
    }
    for count in [0, 1, 1, 1, 2, 2, 3] {
        let list = wild(rng, count);
        let room = room(rng, ENTRY * count);
        write(&list, &mut rng.bytes(room), tally)?;
    }
    Ok(())
}

/// A list that entries hold, in a buffer that is exact, and in others of any length.
pub fn held(rng: &mut Rng, count: usize, tally: &mut Tally) -> Outcome {
    let list = payments(rng, count);
    let needs = ENTRY * count;
    for room in [needs, room(rng, needs), room(rng, needs), room(rng, needs)] {
        let mut buffer = rng.bytes(room);
        let counted = write(&list, &mut buffer, tally)?;
        match room < needs {
            true => answered("written", counted, 18, 0)?,
            false => {
                answered("written", counted, 0, count)?;
                read_back(rng, &list, &buffer[..needs], tally)?;
            }
        }
    }
    Ok(())
}

/// What was written is read back equal, in a list that is long enough.
fn read_back(rng: &mut Rng, list: &[Payment], written: &[u8], tally: &mut Tally) -> Outcome {
    let room = list.len() + rng.below(3);
    let mut back = wild(rng, room);
    let counted = read(written, &mut back, tally)?;
    answered("read back", counted, 0, list.len())?;
    tally.compared(READ_BACK);
    same("list read back", &&back[..list.len()], &list)
}

/// A list in which one payment is spoilt, in a buffer that is long enough or not.
fn spoilt(rng: &mut Rng, spoil: fn(&mut Payment), tally: &mut Tally) -> Outcome {
    let count = 1 + rng.below(4);
    let mut list = payments(rng, count);
    spoil(&mut list[rng.below(count)]);
    let room = room(rng, ENTRY * count);
    let counted = write(&list, &mut rng.bytes(room), tally)?;
    answered("written", counted, 17, 0)
}
