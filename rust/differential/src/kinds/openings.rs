//! Openings by what is wrong with them, which every run must meet.
use crate::opening::{date, Given, Opening};
use oracle::{Date, DELAYS, HIGHEST_RATE, MOST_DATES};
use std::sync::LazyLock;

/// What can be wrong with an opening, in the order of the checks, and the answer where it is the
/// first.
pub const WRONGS: [(&str, u8); 5] = [
    ("id", 2),
    ("default", 14),
    ("fee", 20),
    ("date", 21),
    ("list", 22),
];

/// Openings that are wrong in some things, and the answer: the first no decides.
struct Kind {
    name: String,
    wrong: [bool; 5],
    refusal: u8,
}

static KINDS: LazyLock<Vec<Kind>> = LazyLock::new(|| every_set().map(Kind::new).collect());

impl Kind {
    fn new(wrong: [bool; 5]) -> Kind {
        let given = WRONGS.iter().zip(wrong).filter(|(_, wrong)| *wrong);
        let parts: Vec<_> = given.map(|(part, _)| part).collect();
        let names: Vec<_> = parts.iter().map(|(name, _)| *name).collect();
        let refusal = parts.first().map_or(0, |(_, refusal)| *refusal);
        let name = match refusal {
            0 => "openings accepted".to_string(),
            _ => format!(
                "openings refused with {refusal}, wrong in {}",
                names.join(", ")
            ),
        };
        Kind {
            name,
            wrong,
            refusal,
        }
    }
}

/// Fees at the edges, with the answer.
const EDGES: [(&str, u32, u8); 5] = [
    ("openings accepted with a fee of 0", 0, 0),
    ("openings accepted with a fee of 1", 1, 0),
    ("openings accepted with a fee of 1,000", HIGHEST_RATE, 0),
    ("openings refused for a fee of 1,001", HIGHEST_RATE + 1, 20),
    ("openings refused for a fee of 2^32 - 1", u32::MAX, 20),
];

/// Every set of things that can be wrong.
pub fn every_set() -> impl Iterator<Item = [bool; 5]> {
    (0..1 << 5).map(|set| std::array::from_fn(|at| set >> at & 1 == 1))
}

/// What an opening gives.
fn given(how: &Opening) -> Given {
    match how {
        Opening::Plain => Given::default(),
        Opening::With(given) => given.clone(),
    }
}

/// The names of all these kinds.
pub fn names() -> impl Iterator<Item = &'static str> {
    let kinds = KINDS.iter().map(|kind| kind.name.as_str());
    kinds.chain(EDGES.iter().map(|(name, ..)| *name))
}

/// The kind of an opening, and the answer that it must get.
pub fn kind(id: &[u8], how: &Opening) -> (&'static str, u8) {
    let Given { delay, fee, dates } = given(how);
    let dates = dates.unwrap_or_default();
    let wrong = [
        id.len() != 16,
        !DELAYS.contains(&delay),
        fee > HIGHEST_RATE,
        !dates.iter().copied().map(date).all(|it: Date| it.exists()),
        dates.len() > MOST_DATES || !dates.is_sorted_by(|one, next| one < next),
    ];
    let found = KINDS.iter().find(|kind| kind.wrong == wrong);
    let kind = found.expect("every kind");
    (&kind.name, kind.refusal)
}

/// The kind of an opening with this answer by its fee, if that is at an edge.
pub fn edge(how: &Opening, refusal: u8) -> impl Iterator<Item = &'static str> {
    let fee = given(how).fee;
    let found = EDGES
        .iter()
        .filter(move |(_, edge, answer)| (*edge, *answer) == (fee, refusal));
    found.map(|(name, ..)| *name)
}
