//! Reading: entries, entries of which one is spoilt, cut and damaged strings.
use super::answered;
use super::arbitrary::{entries, room, wild};
use crate::kinds::bank::{half, half_kind, LENGTHS, UNREADABLE, WRITTEN_AGAIN};
use crate::pair::{same, Outcome};
use crate::payments::{read, write};
use crate::rng::Rng;
use crate::tally::Tally;
use oracle::bank::ENTRY;

/// Entries in rooms of any kind, each way to spoil one, and strings of other lengths or damaged.
pub fn case(rng: &mut Rng, tally: &mut Tally) -> Outcome {
    rooms(rng, tally)?;
    for (kind, spoil) in UNREADABLE {
        spoilt(rng, spoil, tally).map_err(|text| format!("{kind}: {text}"))?;
        tally.compared(kind);
    }
    for place in 0..15 {
        let above = 10 + rng.below(6) as u8;
        let spoil = |entry: &mut [u8; ENTRY]| half(entry, place, above);
        spoilt(rng, spoil, tally).map_err(|text| format!("half byte {place}: {text}"))?;
        tally.compared(half_kind(place));
    }
    for (kind, length) in LENGTHS {
        let bytes = entries(rng, 3).concat();
        let room = 3 + rng.below(3);
        let counted = read(&bytes[..length], &mut wild(rng, room), tally)?;
        answered(kind, counted, 18, 0)?;
        tally.compared(kind);
    }
    for _ in 0..16 {
        let bytes = damaged(rng);
        again(rng, &bytes, tally)?;
    }
    Ok(())
}

/// Entries into a list that is exact, and into others of any length.
fn rooms(rng: &mut Rng, tally: &mut Tally) -> Outcome {
    let count = rng.below(5);
    let bytes = entries(rng, count).concat();
    for room in [count, room(rng, count), room(rng, count), room(rng, count)] {
        let counted = read(&bytes, &mut wild(rng, room), tally)?;
        match room < count {
            true => answered("read", counted, 18, 0)?,
            false => answered("read", counted, 0, count)?,
        }
    }
    Ok(())
}

/// Entries of which one is spoilt, into a list that is long enough, and into one that is not.
fn spoilt(rng: &mut Rng, spoil: impl Fn(&mut [u8; ENTRY]), tally: &mut Tally) -> Outcome {
    let count = 1 + rng.below(4);
    let mut entries = entries(rng, count);
    spoil(&mut entries[rng.below(count)]);
    let bytes = entries.concat();
    let room = count + rng.below(3);
    let counted = read(&bytes, &mut wild(rng, room), tally)?;
    answered("read", counted, 19, 0)?;
    let room = rng.below(count);
    let counted = read(&bytes, &mut wild(rng, room), tally)?;
    answered("read into a short list", counted, 18, 0)
}

/// A string that is accepted is the only one for its list: written again, the list is that string.
fn again(rng: &mut Rng, bytes: &[u8], tally: &mut Tally) -> Outcome {
    let room = bytes.len() / ENTRY + rng.below(3);
    let mut list = wild(rng, room);
    let counted = read(bytes, &mut list, tally)?;
    if counted.refusal != 0 {
        return Ok(());
    }
    let mut written = rng.bytes(bytes.len());
    let list = &list[..counted.payments];
    answered("written", write(list, &mut written, tally)?, 0, list.len())?;
    tally.compared(WRITTEN_AGAIN);
    same("string written again", &&*written, &bytes)
}

/// Entries with a bit or a half byte turned over, cut or made longer, or any bytes.
fn damaged(rng: &mut Rng) -> Vec<u8> {
    let count = 1 + rng.below(3);
    let mut entries = entries(rng, count);
    let entry = &mut entries[rng.below(count)];
    half(entry, rng.below(15), rng.below(11) as u8);
    let mut bytes = entries.concat();
    match rng.below(8) {
        0 => bytes.truncate(rng.below(bytes.len())),
        1 => bytes.push(rng.number() as u8),
        2 => bytes = rng.bytes(bytes.len()),
        3 | 4 => rng.flip_bit(&mut bytes),
        _ => {}
    }
    bytes
}
