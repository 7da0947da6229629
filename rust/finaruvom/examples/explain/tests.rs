//! Journals and the words for them, which were worked out by hand from the papers.
use crate::moment::Moment;
use crate::options::Options;
use crate::{run, story};
use finaruvom::command::{Establish, FundMerchant, MerchantClose, SetClock, Settle};
use finaruvom::{Cents, Seconds};
use oracle::Signer;
use std::ffi::OsString;

/// A week of November 2026, which `examples/README.md` tells.
const WEEK: &str = concat!(env!("CARGO_MANIFEST_DIR"), "/../../examples/week.journal");

/// The id of the other journals.
const ID: [u8; 16] = [7; 16];

/// What is told, or said of what is wrong.
fn explained(arguments: &[&str]) -> Result<String, String> {
    let mut out = Vec::new();
    let arguments = arguments.iter().map(OsString::from);
    run(arguments, &mut out).map_err(|error| error.to_string())?;
    Ok(String::from_utf8(out).unwrap())
}

/// The week with these options, by its lines.
fn week(options: &[&str]) -> Vec<String> {
    let told = explained(&[options, &[WEEK]].concat()).unwrap();
    told.lines().map(str::to_string).collect()
}

/// Tuesday, 3 November, is shut, and so is the Monday after. Four days from Tuesday on is Saturday,
/// so the deadline of channel 1 is Tuesday of the next week. That of channel 2, Tuesday at five, is
/// Wednesday's, and its settlings come too early: it is due next, with what its customer keeps.
#[test]
fn with_shut_days() {
    let options = [
        "--delay",
        "345600",
        "--fee",
        "250",
        "--dates",
        "20261103,20261109",
    ];
    let expected: Vec<_> = include_str!("week.txt").lines().collect();
    assert_eq!(week(&options), expected);
}

/// Asserts how some lines of the week end, by their numbers.
fn ending(options: &[&str], lines: &[(usize, &str)]) {
    let told = week(options);
    assert_eq!(told.len(), 22);
    for (number, end) in lines {
        assert!(told[number - 1].ends_with(end), "{}", told[number - 1]);
    }
}

/// Without a list nothing is moved, and channel 2 is settled; without a fee the merchant has all.
#[test]
fn without_a_list() {
    let lines = [
        (
            11,
            ", 40000 cents to the customer, 60000 cents to the merchant",
        ),
        (13, ", deadline Wednesday 2026-11-04 00:00:00"),
        (17, ": accepted, deadline Tuesday 2026-11-03 05:00:00"),
        (20, ": accepted, 20000 cents to the customer"),
        (
            21,
            ": refused with 5: the channel's status does not allow it",
        ),
        (22, "no channel is due"),
    ];
    ending(&[], &lines);
    let saturday = (13, ", deadline Saturday 2026-11-07 00:00:00");
    ending(&["--delay", "345600"], &[saturday]);
}

/// An empty list, in both ways to write it, shuts the weekend.
#[test]
fn with_an_empty_list() {
    let monday = (13, ", deadline Monday 2026-11-09 00:00:00");
    for empty in ["", "-"] {
        ending(&["--dates", empty, "--delay", "345600"], &[monday]);
    }
}

#[test]
fn moments() {
    let told = |time| Moment(Seconds(time)).to_string();
    assert_eq!(told(0), "Thursday 1970-01-01 00:00:00");
    assert_eq!(told(172_799), "Friday 1970-01-02 23:59:59");
    assert_eq!(told(1_798_192_861), "Friday 2026-12-25 10:01:01");
    assert_eq!(told(13_569_465_599), "Friday 2399-12-31 23:59:59");
    assert_eq!(told(13_569_465_600), "13569465600 seconds");
}

/// What is told of these commands, and said at their end.
fn told(commands: &[u8]) -> (String, Result<(), String>) {
    let options = Options::parse([OsString::from("-")].into_iter()).unwrap();
    let journal = [&ID, commands].concat();
    let mut out = Vec::new();
    let end = story::tell(&journal, &options, &mut out).map_err(|error| error.to_string());
    (String::from_utf8(out).unwrap(), end)
}

#[test]
fn ends() {
    let time = Seconds(u64::MAX);
    let clock = SetClock { time }.command();
    let settle = Settle { channel: 300 }.command();
    let lines = [
        "1 clock to 18446744073709551615 seconds: refused with 3: ",
        "the time is before the clock or above 2^63 - 1\n",
        "2 channel 300, settle: refused with 4: the channel is not below 64\n",
    ]
    .concat();
    let whole = [&clock[..], &settle].concat();
    let (text, end) = told(&whole);
    assert_eq!((text, end), (format!("{lines}no channel is due\n"), Ok(())));
    for (more, cause) in [
        (&[0x0a, 0][..], "fewer bytes than the command needs"),
        (&[0x0b, 0], "the first byte is no command"),
    ] {
        let (text, end) = told(&[&whole, more].concat());
        let said = format!("the journal breaks off at byte 28: {cause}");
        assert_eq!((&text, end), (&lines, Err(said)));
    }
    assert_eq!(told(&[]), ("no channel is due\n".to_string(), Ok(())));
}

/// A channel that its merchant alone funds, and closes.
fn closing(channel: u16, cents: u64) -> Vec<u8> {
    let merchant = Signer::with_leaves([2; 32], [2; 16], &[0]);
    let establish = Establish {
        channel,
        customer_key: Signer::with_leaves([1; 32], [1; 16], &[]).key(),
        merchant_key: merchant.key(),
        customer: Cents(0),
        merchant: Cents(cents),
        delay: 3_600,
    };
    let amount = Cents(cents);
    let fund = FundMerchant { channel, amount }.command();
    let close = MerchantClose { channel };
    let signature = merchant.sign(0, &[3; 32], &close.message(&ID));
    [&establish.command()[..], &fund, &close.command(&signature)].concat()
}

/// Of two closings with one deadline that with the larger sum is due next.
#[test]
fn equal_deadlines() {
    for (sums, next) in [([700, 900], "1, 900"), ([900, 900], "0, 900")] {
        let (text, end) = told(&[closing(0, sums[0]), closing(1, sums[1])].concat());
        let deadline = "deadline Thursday 1970-01-01 01:00:00";
        let last = format!("due next: channel {next} cents held, {deadline}");
        assert_eq!((text.lines().last(), end), (Some(&last[..]), Ok(())));
    }
}

#[test]
fn wrong_calls() {
    let usage = "explain [--delay N] [--fee N] [--dates LIST] JOURNAL";
    let folder = env!("CARGO_MANIFEST_DIR");
    for (arguments, said) in [
        (&[][..], usage),
        (&["--dates"], usage),
        (&["--dates", "-"], usage),
        (&["--days", "-", WEEK], usage),
        (&[WEEK, WEEK], usage),
        (&["--delay", "day", WEEK], "'day' is no number"),
        (&["--fee", "-1", WEEK], "'-1' is no number"),
        (&["--dates", "20261225,", WEEK], "'' is no number"),
        (
            &["--dates", "25.12.2026", WEEK],
            "'25.12.2026' is no number",
        ),
        (&["no such file"], "no such file: No such file or directory"),
        (&[folder], &format!("{folder}: Is a directory")),
        (&["/dev/null"], "the journal has no book id"),
        (&["--delay", "3599", WEEK], "the book is not opened: 14: "),
        (&["--fee", "1001", WEEK], "the book is not opened: 20: "),
        (
            &["--dates", "20260431", WEEK],
            "the book is not opened: 21: ",
        ),
        (
            &["--dates", "20261225,20261225", WEEK],
            "the book is not opened: 22: ",
        ),
    ] {
        let error = explained(arguments).unwrap_err();
        assert!(error.starts_with(said), "{error}");
    }
}
