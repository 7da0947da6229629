//! Closings with the second that their deadline falls on, and the deadline written out.
use crate::arbitrary::dates::number;
use oracle::LARGEST;
use List::{Of, Row, Without};

/// What the book is opened with.
#[derive(Clone, Copy)]
pub enum List {
    /// No list.
    Without,
    Of(&'static [u32]),
    /// So many dates one after the other, from this day on.
    Row(u32, usize),
}

impl List {
    pub fn dates(self) -> Option<Vec<u32>> {
        match self {
            List::Without => None,
            List::Of(dates) => Some(dates.to_vec()),
            List::Row(first, count) => Some((first..).map(number).take(count).collect()),
        }
    }
}

/// Friday, 25 December 2026, and the Monday after it.
const FRIDAY: &[u32] = &[20_261_225];
const MONDAY: &[u32] = &[20_261_228];
const BOTH: &[u32] = &[20_261_225, 20_261_228];
/// The last date, a Friday.
const LAST: &[u32] = &[23_991_231];
/// The Monday after the largest clock, 00:00:00.
const AFTER_ALL: u64 = 9_223_372_036_854_806_400;

/// The scenes by their names. 1970-01-02 is a Friday, and its last second is 172,799.
pub const SCENES: [(&str, List, u64, u64); 37] = [
    ("Friday 23:59:59", Of(&[]), 172_799, 172_799),
    ("Saturday 00:00:00", Of(&[]), 172_800, 345_600),
    ("Saturday 00:00:01", Of(&[]), 172_801, 345_600),
    ("Sunday 00:00:00", Of(&[]), 259_200, 345_600),
    ("Sunday 23:59:59", Of(&[]), 345_599, 345_600),
    ("Monday 00:00:00", Of(&[]), 345_600, 345_600),
    ("Saturday without a list", Without, 172_800, 172_800),
    ("Sunday without a list", Without, 345_599, 345_599),
    (
        "Thursday before a shut Friday",
        Of(FRIDAY),
        1_798_156_799,
        1_798_156_799,
    ),
    (
        "shut Friday 00:00:00",
        Of(FRIDAY),
        1_798_156_800,
        1_798_416_000,
    ),
    (
        "shut Friday 10:00:00",
        Of(FRIDAY),
        1_798_192_800,
        1_798_416_000,
    ),
    (
        "shut Friday 23:59:59",
        Of(FRIDAY),
        1_798_243_199,
        1_798_416_000,
    ),
    (
        "shut Friday and Monday",
        Of(BOTH),
        1_798_192_800,
        1_798_502_400,
    ),
    (
        "shut Monday alone, on Friday",
        Of(MONDAY),
        1_798_192_800,
        1_798_192_800,
    ),
    (
        "shut Monday alone, on Sunday",
        Of(MONDAY),
        1_798_372_800,
        1_798_502_400,
    ),
    (
        "shut Monday 23:59:59",
        Of(MONDAY),
        1_798_502_399,
        1_798_502_400,
    ),
    (
        "Tuesday after a shut Monday",
        Of(MONDAY),
        1_798_502_400,
        1_798_502_400,
    ),
    (
        "shut Friday without a list",
        Without,
        1_798_192_800,
        1_798_192_800,
    ),
    (
        "listed Saturday",
        Of(&[20_261_226]),
        1_798_279_200,
        1_798_416_000,
    ),
    (
        "Friday before a listed Sunday",
        Of(&[20_261_227]),
        1_798_192_800,
        1_798_192_800,
    ),
    (
        "shut Wednesday 00:00:00",
        Of(&[20_261_223]),
        1_797_984_000,
        1_798_070_400,
    ),
    (
        "29 February",
        Of(&[20_280_229]),
        1_835_438_400,
        1_835_481_600,
    ),
    (
        "1 March 2100, a shut Monday",
        Of(&[21_000_301]),
        4_107_542_400,
        4_107_628_800,
    ),
    (
        "28 February 2100, a Sunday",
        Of(&[21_000_301]),
        4_107_456_000,
        4_107_628_800,
    ),
    ("the first day", Of(&[19_700_101]), 3_600, 86_400),
    (
        "30 days in a row",
        Row(20_759, 30),
        1_793_577_600,
        1_796_169_600,
    ),
    ("64 days in a row", Row(4, 64), 345_600, 5_875_200),
    (
        "a weekend and 64 days in a row",
        Row(4, 64),
        172_800,
        5_875_200,
    ),
    (
        "64 days in a row and a weekend",
        Row(1, 64),
        86_401,
        5_788_800,
    ),
    ("the last day of 64", Row(1, 64), 5_615_999, 5_788_800),
    (
        "the last date, not listed",
        Of(&[]),
        13_569_465_599,
        13_569_465_599,
    ),
    (
        "the last date, listed",
        Of(LAST),
        13_569_379_200,
        13_569_638_400,
    ),
    (
        "Saturday after the last date",
        Of(LAST),
        13_569_465_600,
        13_569_638_400,
    ),
    (
        "Monday, 25 December 2400",
        Of(LAST),
        13_600_483_200,
        13_600_483_200,
    ),
    ("the largest clock's day", Of(FRIDAY), LARGEST, AFTER_ALL),
    (
        "after the largest clock",
        Of(&[]),
        LARGEST + 3_600,
        AFTER_ALL,
    ),
    (
        "long after the largest clock",
        Of(&[]),
        LARGEST + 2_592_000,
        LARGEST + 2_592_000,
    ),
];
