//! Lists of dates that are given to an opening, and lists that stand in a book, which every run
//! must meet.
use crate::arbitrary::dates::{bad, number, numbers, rising};
use crate::rng::Rng;
use finaruvom::raw::Setup;
use oracle::{DAYS, MOST_DATES};

/// A list that is given, and the opening's answer.
type Given = (&'static str, fn(&mut Rng) -> Vec<u32>, u8);

/// Lists that are given.
pub const GIVEN: [Given; 24] = [
    ("openings with an empty list", |_| Vec::new(), 0),
    ("openings with one date", |rng| any(rng, 1), 0),
    ("openings with 64 dates", |rng| any(rng, MOST_DATES), 0),
    ("openings with 64 dates in a row", |_| row(9, MOST_DATES), 0),
    (
        "openings with a Saturday and a Sunday",
        |_| vec![20_261_226, 20_261_227],
        0,
    ),
    ("openings with the first date", |_| vec![19_700_101], 0),
    ("openings with the last date", |_| vec![23_991_231], 0),
    ("openings with 29 February of 2000", |_| vec![20_000_229], 0),
    ("openings with 29 February of 2028", |_| vec![20_280_229], 0),
    (
        "openings refused for 65 dates",
        |rng| any(rng, MOST_DATES + 1),
        22,
    ),
    ("openings refused for 200 dates", |rng| any(rng, 200), 22),
    (
        "openings refused for an equal pair at first",
        |rng| twice(rng, 0),
        22,
    ),
    (
        "openings refused for an equal pair at last",
        |rng| twice(rng, MOST_DATES - 2),
        22,
    ),
    (
        "openings refused for a falling pair at first",
        |rng| falling(rng, 0),
        22,
    ),
    (
        "openings refused for a falling pair at last",
        |rng| falling(rng, MOST_DATES - 2),
        22,
    ),
    (
        "openings refused for the first of three, no date",
        |rng| spoilt(rng, 3, 0),
        21,
    ),
    (
        "openings refused for a 64th that is no date",
        |rng| spoilt(rng, 64, 63),
        21,
    ),
    (
        "openings refused for a 65th that is no date",
        |rng| spoilt(rng, 65, 64),
        21,
    ),
    (
        "openings refused for a 70th that is no date",
        |rng| spoilt(rng, 70, 69),
        21,
    ),
    (
        "openings refused for no date behind a falling pair",
        |rng| [falling(rng, 0), vec![bad(rng)]].concat(),
        21,
    ),
    (
        "openings refused for 29 February of 2100",
        |_| vec![21_000_229],
        21,
    ),
    (
        "openings refused for 31 December 1969",
        |_| vec![19_691_231],
        21,
    ),
    (
        "openings refused for 1 January 2400",
        |_| vec![24_000_101],
        21,
    ),
    (
        "openings refused for the numbers 0 and 2^32 - 1",
        |_| vec![0, u32::MAX],
        21,
    ),
];

/// A list that stands in a book, and whether the book is sound with it.
type Stored = (&'static str, fn(&mut Setup), bool);

/// Lists that stand in a book. Each is made of a full one from day 9 on.
pub const STORED: [Stored; 20] = [
    (
        "books unsound by a dated of 2 alone",
        |it| it.dated = 2,
        false,
    ),
    (
        "books unsound by a dated of 256 alone",
        |it| it.dated = 256,
        false,
    ),
    (
        "books unsound by a dated of 257 alone",
        |it| it.dated = 257,
        false,
    ),
    (
        "books unsound by a dated of 2^32 - 1 alone",
        |it| it.dated = u32::MAX,
        false,
    ),
    (
        "books unsound by a count of 65 alone",
        |it| it.count = 65,
        false,
    ),
    (
        "books unsound by a count of 256 alone",
        |it| it.count = 256,
        false,
    ),
    (
        "books unsound by a count of 2^16 + 1 alone",
        |it| it.count = 65_537,
        false,
    ),
    (
        "books unsound by a count of 2^32 - 1 alone",
        |it| it.count = u32::MAX,
        false,
    ),
    (
        "books unsound by an equal pair at first alone",
        |it| it.days[0] = it.days[1],
        false,
    ),
    (
        "books unsound by an equal pair at last alone",
        |it| it.days[63] = it.days[62],
        false,
    ),
    (
        "books unsound by a falling pair alone",
        |it| it.days.swap(31, 32),
        false,
    ),
    (
        "books unsound by day 157,054 alone",
        |it| it.days[63] = DAYS,
        false,
    ),
    (
        "books unsound by day 2^32 - 1 alone",
        |it| it.days[63] = u32::MAX,
        false,
    ),
    (
        "books unsound by a pair that is counted",
        |it| behind(it, 3),
        false,
    ),
    ("sound books with a full list", |_| (), true),
    (
        "sound books with the last day",
        |it| it.days[63] = DAYS - 1,
        true,
    ),
    (
        "sound books with anything behind one day",
        |it| behind(it, 1),
        true,
    ),
    (
        "sound books with anything behind two days",
        |it| behind(it, 2),
        true,
    ),
    (
        "sound books with anything and no day",
        |it| behind(it, 0),
        true,
    ),
    ("sound books with the first day", |it| it.days[0] = 0, true),
];

/// So many dates, from any day on.
fn any(rng: &mut Rng, count: usize) -> Vec<u32> {
    let first = rng.below(DAYS as usize) as u32;
    numbers(&rising(rng, first, count))
}

/// So many dates one after the other, from this day on.
fn row(first: u32, count: usize) -> Vec<u32> {
    (first..).map(number).take(count).collect()
}

/// A list of 64 with the date at this place twice.
fn twice(rng: &mut Rng, place: usize) -> Vec<u32> {
    let mut list = any(rng, MOST_DATES);
    list[place + 1] = list[place];
    list
}

/// A list of 64 with two dates at this place changed over.
fn falling(rng: &mut Rng, place: usize) -> Vec<u32> {
    let mut list = any(rng, MOST_DATES);
    list.swap(place, place + 1);
    list
}

/// A list of so many with a number at this place that is no date.
fn spoilt(rng: &mut Rng, count: usize, place: usize) -> Vec<u32> {
    let mut list = any(rng, count);
    list[place] = bad(rng);
    list
}

/// So many days are counted: behind the second they fall, and are no dates.
fn behind(setup: &mut Setup, count: u32) {
    setup.days[2..].fill(u32::MAX);
    setup.days[2] = 0;
    setup.count = count;
}

/// The names of all these kinds.
pub fn names() -> impl Iterator<Item = &'static str> {
    let given = GIVEN.iter().map(|(name, ..)| *name);
    given.chain(STORED.iter().map(|(name, ..)| *name))
}
