//! Lists of dates: those that an opening is given, and those that stand in a book.
use crate::opening::date;
use crate::rng::Rng;
use finaruvom::raw::Setup;
use oracle::{Date, DAYS, MOST_DATES};
use std::sync::LazyLock;

/// The numbers of all dates by their days.
static NUMBERS: LazyLock<Vec<u32>> = LazyLock::new(|| Date::every().map(packed).collect());

/// Numbers that are no dates. Some would be one if a part of their digits or bits were dropped.
const BAD: [u32; 20] = [
    0,
    1,
    1_225,
    19_691_231,
    24_000_101,
    24_000_229,
    20_260_229,
    21_000_229,
    20_260_431,
    20_280_230,
    20_260_001,
    20_261_301,
    20_260_100,
    20_260_132,
    20_261_199,
    20_269_901,
    120_261_225,
    675_621_225,
    4_294_961_231,
    u32::MAX,
];

/// Days at the ends of the calendar, and around a 29 February.
const EDGES: [u32; 8] = [0, 1, 788, 789, 790, 47_540, DAYS - 2, DAYS - 1];

/// Year × 10,000 + month × 100 + day.
fn packed(date: Date) -> u32 {
    10_000 * date.year + 100 * date.month + date.day
}

/// The number of the date of a day.
pub fn number(day: u32) -> u32 {
    NUMBERS[day as usize]
}

/// The numbers of these days.
pub fn numbers(days: &[u32]) -> Vec<u32> {
    days.iter().copied().map(number).collect()
}

/// A number that is no date.
pub fn bad(rng: &mut Rng) -> u32 {
    let any = rng.number() as u32;
    match rng.below(4) {
        0 if date(any).number().is_none() => any,
        _ => rng.pick(&BAD),
    }
}

/// So many days that rise, in a row or with gaps, from about this one on.
pub fn rising(rng: &mut Rng, first: u32, count: usize) -> Vec<u32> {
    let widest = rng.pick(&[1, 1, 2, 7]);
    let mut next = first.min(DAYS - 1 - widest * count as u32);
    let day = |_| {
        let day = next;
        next += 1 + rng.below(widest as usize) as u32;
        day
    };
    (0..count).map(day).collect()
}

/// A list that an opening accepts, of days around this one, at an edge or anywhere.
pub fn good(rng: &mut Rng, around: u32) -> Vec<u32> {
    let count = rng.pick(&[0, 1, 1, 2, 5, 20, MOST_DATES - 1, MOST_DATES]);
    let any = rng.below(DAYS as usize) as u32;
    let edge = rng.pick(&EDGES);
    let first = rng.pick(&[around, around, around, any, edge]);
    numbers(&rising(rng, first, count))
}

/// A list that an opening may refuse: a number in it that is no date, too many, an equal pair or a
/// falling one, or all of these.
pub fn wrong(rng: &mut Rng, around: u32) -> Vec<u32> {
    let count = rng.pick(&[1, 2, 3, MOST_DATES, MOST_DATES + 1, 70]);
    let mut list = numbers(&rising(rng, around, count));
    let place = rng.below(count);
    match rng.below(5) {
        0 => list[place] = bad(rng),
        1 => list[count - 1] = bad(rng),
        2 => list.push(list[count - 1]),
        3 => list.swap(0, place),
        _ => {
            list.swap(0, place);
            list.push(bad(rng));
        }
    }
    list
}

/// No list, or a list that an opening accepts.
pub fn any_good(rng: &mut Rng, around: u32) -> Option<Vec<u32>> {
    (!rng.one_in(3)).then(|| good(rng, around))
}

/// A list of any kind, or none.
pub fn any(rng: &mut Rng, around: u32) -> Option<Vec<u32>> {
    match rng.below(4) {
        0 => Some(wrong(rng, around)),
        _ => any_good(rng, around),
    }
}

/// Puts a sound list into a setup, of days around this one, with anything behind those counted.
pub fn put_sound(rng: &mut Rng, setup: &mut Setup, around: u32) {
    let count = rng.pick(&[0, 1, 2, 9, MOST_DATES - 1, MOST_DATES]);
    let edge = rng.pick(&EDGES);
    let first = rng.pick(&[around, around, around.saturating_sub(9), edge]);
    let days = rising(rng, first, count);
    for (at, place) in setup.days.iter_mut().enumerate() {
        *place = days
            .get(at)
            .copied()
            .unwrap_or_else(|| rng.pick(&[0, around, u32::MAX]));
    }
    (setup.count, setup.dated) = (count as u32, rng.pick(&[0, 1, 1]));
}

/// Changes one value of a list, which may then be unsound.
pub fn touch(rng: &mut Rng, setup: &mut Setup) {
    let at = rng.below(MOST_DATES);
    match rng.below(5) {
        0 => setup.dated = rng.pick(&[0, 1, 2, 256, 257, 1 << 16, u32::MAX]),
        1 => setup.count = rng.pick(&[0, 1, 63, 64, 65, 256, 1 << 16, u32::MAX]),
        2 => setup.days[at] = rng.pick(&[0, DAYS - 1, DAYS, u32::MAX]),
        3 => setup.days[at] = setup.days[(at + 1) % MOST_DATES],
        _ => setup.days.swap(at, (at + 1) % MOST_DATES),
    }
}
