//! The header's numbers are the crate's, and the archive's version and settings are those of both.
use finaruvom::bank::Payee;
use finaruvom::raw;
use finaruvom::{
    version, Cause, Refusal, Settings, Status, UnknownNumber, Versions, BOOK_SIZE, CHANNELS, DAYS,
    DESK_DELAY, DIGEST_SIZE, ENTRY_SIZE, HIGHEST_FEE, ID_SIZE, KEY_SIZE, LARGEST_AMOUNT, LAYOUT,
    LEAVES, LONGEST_DELAY, LONGEST_MESSAGE, MOST_DATES, NODES, NONCE_SIZE, PLAIN_DELAY, SEED_SIZE,
    SHORTEST_DELAY, SIGNATURE_SIZE, SIGNER_SIZE,
};
use std::collections::BTreeMap;
use std::fmt::Debug;

const HEADER: &str = include_str!("../../../include/finaruvom.h");

type Numbers = BTreeMap<String, usize>;

/// The header's definitions of numbers.
fn defined() -> Numbers {
    let lines = HEADER
        .lines()
        .filter_map(|line| line.strip_prefix("#define FINARUVOM_"));
    let pairs = lines.filter_map(|line| line.split_once(' '));
    let numbers = pairs.filter_map(|(name, value)| Some((name.into(), number(value)?)));
    numbers.collect()
}

/// A number as it stands in C, plain or with 64 bits.
fn number(value: &str) -> Option<usize> {
    let wide = value.strip_prefix("UINT64_C(");
    let digits = wide.and_then(|rest| rest.strip_suffix(')'));
    digits.unwrap_or(value).parse().ok()
}

/// The numbers of one of the header's enums.
fn listed(name: &str) -> Numbers {
    let start = format!("enum finaruvom_{name} {{");
    let (_, rest) = HEADER.split_once(&start).unwrap();
    let (body, _) = rest.split_once("};").unwrap();
    let items = body.lines().filter_map(|line| {
        let (name, value) = line.split_once(',')?.0.split_once(" = ")?;
        let name = name.trim().strip_prefix("FINARUVOM_")?;
        Some((camel(name), value.parse().unwrap()))
    });
    items.collect()
}

/// `AwaitingCustomer` for `AWAITING_CUSTOMER`.
fn camel(name: &str) -> String {
    let words = name.split('_');
    let word = |word: &str| word[..1].to_string() + &word[1..].to_lowercase();
    words.map(word).collect()
}

/// The variants of one of the crate's enums, by their names.
fn variants<T: TryFrom<u8> + Copy + Debug>(number: fn(T) -> u8) -> Numbers {
    let all = (0..=u8::MAX).filter_map(|byte| Some((byte, T::try_from(byte).ok()?)));
    let named = all.map(|(byte, variant)| {
        assert_eq!(number(variant), byte);
        (format!("{variant:?}"), usize::from(byte))
    });
    named.collect()
}

/// The crate's version by its parts.
fn packaged() -> [u32; 3] {
    let parts = env!("CARGO_PKG_VERSION").split('.');
    let parts: Vec<u32> = parts.map(|part| part.parse().unwrap()).collect();
    parts.try_into().unwrap()
}

/// The sizes of the crate's structs, by the header's names.
fn structs() -> [(&'static str, usize); 14] {
    [
        ("PARTY_SIZE", size_of::<raw::Party>()),
        ("CHANNEL_LEAVES_SIZE", size_of::<raw::Leaves>()),
        ("CHANNEL_SIZE", size_of::<raw::Channel>()),
        ("SETUP_SIZE", size_of::<raw::Setup>()),
        ("SETTINGS_SIZE", size_of::<raw::Settings>()),
        ("ANSWER_SIZE", size_of::<raw::Answer>()),
        ("LINE_SIZE", size_of::<raw::Line>()),
        ("READING_SIZE", size_of::<raw::Reading>()),
        ("FOUND_SIZE", size_of::<raw::Found>()),
        ("RAN_SIZE", size_of::<raw::Ran>()),
        ("PAYMENT_SIZE", size_of::<raw::Payment>()),
        ("COUNTED_SIZE", size_of::<raw::Counted>()),
        ("VERSIONS_SIZE", size_of::<raw::Versions>()),
        ("NODE_SIZE", size_of::<raw::Node>()),
    ]
}

#[test]
fn definitions() {
    let (stacks, mut defined): (Numbers, Numbers) = defined()
        .into_iter()
        .partition(|(name, _)| name.starts_with("STACK_"));
    assert_eq!(stacks.len(), 10);
    let [major, minor, patch] = packaged();
    let crates = [
        ("VERSION_MAJOR", major as usize),
        ("VERSION_MINOR", minor as usize),
        ("VERSION_PATCH", patch as usize),
        ("LAYOUT", LAYOUT as usize),
        ("CHANNELS", CHANNELS),
        ("ID_SIZE", ID_SIZE),
        ("KEY_SIZE", KEY_SIZE),
        ("SIGNATURE_SIZE", SIGNATURE_SIZE),
        ("DIGEST_SIZE", DIGEST_SIZE),
        ("SEED_SIZE", SEED_SIZE),
        ("NONCE_SIZE", NONCE_SIZE),
        ("LONGEST_MESSAGE", LONGEST_MESSAGE),
        ("LEAVES", LEAVES as usize),
        ("NODES", NODES),
        ("SIGNER_SIZE", SIGNER_SIZE),
        ("ENTRY_SIZE", ENTRY_SIZE),
        ("LARGEST_AMOUNT", usize::try_from(LARGEST_AMOUNT.0).unwrap()),
        ("SHORTEST_DELAY", SHORTEST_DELAY as usize),
        ("LONGEST_DELAY", LONGEST_DELAY as usize),
        ("PLAIN_DELAY", PLAIN_DELAY as usize),
        ("DESK_DELAY", DESK_DELAY as usize),
        ("HIGHEST_FEE", HIGHEST_FEE as usize),
        ("MOST_DATES", MOST_DATES),
        ("DAYS", DAYS as usize),
        ("BOOK_SIZE", BOOK_SIZE),
    ];
    for (name, value) in crates.into_iter().chain(structs()) {
        assert_eq!(defined.remove(name), Some(value), "{name}");
    }
    assert_eq!(defined, Numbers::new(), "not in the crate");
}

#[test]
fn refusals() {
    let mut listed = listed("refusal");
    assert_eq!(listed.remove("Accepted"), Some(0));
    assert_eq!(listed.len(), 22);
    assert_eq!(variants(Refusal::number), listed);
    assert_eq!(Refusal::try_from(13), Err(UnknownNumber(13)));
    assert_eq!(UnknownNumber(13).to_string(), "unknown number 13");
}

#[test]
fn statuses() {
    let listed = listed("status");
    assert_eq!(listed.len(), 7);
    assert_eq!(variants(Status::number), listed);
}

#[test]
fn causes() {
    let listed = listed("cause");
    assert_eq!(listed.len(), 4);
    assert_eq!(variants(Cause::number), listed);
}

#[test]
fn payees() {
    let listed = listed("payee");
    assert_eq!(listed.len(), 2);
    let payees = variants(Payee::number).into_iter();
    let payees = payees.map(|(name, number)| (format!("To{name}"), number));
    assert_eq!(payees.collect::<Numbers>(), listed);
}

#[test]
fn archive() {
    let [major, minor, patch] = packaged();
    let expected = Versions {
        major,
        minor,
        patch,
        layout: LAYOUT,
    };
    assert_eq!(version(), expected);
    let (plain, desk) = (Settings::default(), Settings::desk());
    assert_eq!((plain.delay, plain.fee), (PLAIN_DELAY, 0));
    assert_eq!((desk.delay, desk.fee), (DESK_DELAY, 0));
    assert_eq!([plain.dates, desk.dates], [None; 2]);
}
