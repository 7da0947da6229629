//! The published journals and signatures through the library alone.
use finaruvom::{raw, Answer, Book, Cause, Line, Verdict};
use std::collections::HashMap;
use std::fmt::Write;
use stored::journals;

#[path = "../../oracle/src/vectors/stored.rs"]
mod stored;

/// The commands of a journal, up to the first one that is unknown or cut.
fn commands(journal: &[u8]) -> Vec<&[u8]> {
    let mut rest = journal;
    let mut commands = Vec::new();
    while let Some(length) = rest.first().and_then(|first| oracle::length(*first)) {
        let Some((command, behind)) = rest.split_at_checked(length) else {
            break;
        };
        commands.push(command);
        rest = behind;
    }
    commands
}

/// The line that the statement program prints of an answer; the fee is its last number.
fn printed(number: u64, answer: Answer) -> String {
    let raw::Answer {
        refusal,
        customer,
        merchant,
        steps,
        fee,
    } = *answer.as_raw();
    format!("{number} {refusal} {customer} {merchant} {steps} {fee}")
}

fn compare(input: &[u8], text: &str) {
    let (id, journal) = input.split_at(16);
    let mut book = Book::open(id).unwrap();
    let mut lines = text.lines();
    for (number, command) in (1..).zip(commands(journal)) {
        let line = printed(number, book.apply(command));
        assert_eq!(Some(line.as_str()), lines.next());
    }
    assert!(lines.next().unwrap().starts_with("end "));
}

#[test]
fn journals_by_command() {
    for (input, text) in journals() {
        compare(&input, &text);
    }
}

/// What the statement program prints: the run is called again while lines are short.
fn statement(input: &[u8]) -> String {
    let (id, journal) = input.split_at(16);
    let mut book = Book::open(id).unwrap();
    let mut lines = [Line::default(); 7];
    let (mut text, mut number, mut used) = (String::new(), 0, 0);
    loop {
        let ran = book.run(&journal[used..], &mut lines);
        used += ran.used;
        for line in &lines[..ran.lines] {
            number += 1;
            writeln!(text, "{}", printed(number, line.answer)).unwrap();
        }
        if ran.cause != Cause::NoLine {
            writeln!(text, "end {used} {}", ran.cause.number()).unwrap();
            return text;
        }
    }
}

#[test]
fn journals_by_run() {
    for (input, text) in journals() {
        assert_eq!(statement(&input), text);
    }
}

/// The bytes of hexadecimal digits; a dash stands for none.
fn bytes(hex: &str) -> Vec<u8> {
    let digits = hex.trim_matches('-');
    let byte = |at| u8::from_str_radix(&digits[at..at + 2], 16).unwrap();
    (0..digits.len()).step_by(2).map(byte).collect()
}

#[test]
fn signatures() {
    let text = include_str!("../../oracle/vectors/lms_h10_w8.txt");
    let lines = text.lines().filter(|line| line.contains("verdict="));
    assert_eq!(lines.clone().count(), 18);
    for line in lines {
        let words = line.split(' ').filter_map(|word| word.split_once('='));
        let part: HashMap<&str, &str> = words.collect();
        let [key, message, signature] =
            ["key", "message", "signature"].map(|name| bytes(part[name]));
        let leaf = || u32::from_be_bytes(*signature.first_chunk().unwrap());
        let good = part["verdict"] == "yes";
        let verdict = Verdict {
            good,
            steps: part["steps"].parse().unwrap(),
            leaf: if good { leaf() } else { 0 },
        };
        assert_eq!(
            finaruvom::check(&key, &message, &signature),
            Ok(verdict),
            "{line}"
        );
    }
}
