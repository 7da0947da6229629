//! A journal, told command by command.
use crate::moment::Moment;
use crate::options::Options;
use finaruvom::{Answer, Book, Cause, Cents, Line, Payments, Refusal, Seconds, ID_SIZE};
use std::error::Error;
use std::io::Write;

/// Runs the commands of a journal one by one and tells each, then what is due. Of a journal that
/// breaks off the whole commands are told.
pub fn tell(journal: &[u8], options: &Options, out: &mut impl Write) -> Result<(), Box<dyn Error>> {
    let Some((id, mut rest)) = journal.split_at_checked(ID_SIZE) else {
        return Err("the journal has no book id".into());
    };
    let mut book = options.open(id).map_err(not_opened)?;
    for number in 1.. {
        let mut lines = [Line::default()];
        let ran = book.run(rest, &mut lines);
        if ran.lines == 0 {
            ended(ran.cause, journal.len() - rest.len())?;
            break;
        }
        let (command, behind) = rest.split_at(ran.used);
        let told = answered(&book, command, &lines[0].answer)?;
        writeln!(out, "{number} {}: {told}", named(command))?;
        rest = behind;
    }
    writeln!(out, "{}", due(&book)?)?;
    Ok(())
}

fn not_opened(refusal: Refusal) -> String {
    format!("the book is not opened: {}", refused(refusal))
}

/// Whether the journal was run to its end.
fn ended(cause: Cause, place: usize) -> Result<(), String> {
    match cause {
        Cause::NoBytes => Ok(()),
        _ => Err(format!("the journal breaks off at byte {place}: {cause}")),
    }
}

/// The channel that a command of whole length names; 01 names none.
fn channel(command: &[u8]) -> Option<u16> {
    match *command {
        [0x02..=0x0a, high, low, ..] => Some(u16::from_be_bytes([high, low])),
        _ => None,
    }
}

/// What a command of whole length is.
fn named(command: &[u8]) -> String {
    let name = match *command {
        [0x02, ..] => "establish",
        [0x03, ..] => "customer funds",
        [0x04, ..] => "merchant funds",
        [0x05, ..] => "customer reclaims",
        [0x06, ..] => "both close",
        [0x07, ..] => "customer closes",
        [0x08, ..] => "merchant closes",
        [0x09, ..] => "merchant disputes",
        _ => "settle",
    };
    match (command, channel(command)) {
        (_, Some(n)) => format!("channel {n}, {name}"),
        (clock, None) => {
            let time = clock.last_chunk().copied().map(u64::from_be_bytes);
            format!("clock to {}", Moment(Seconds(time.unwrap_or_default())))
        }
    }
}

/// How a command was answered, in the book after it.
fn answered(book: &Book, command: &[u8], answer: &Answer) -> Result<String, Refusal> {
    let paid = match answer.paid() {
        Ok(paid) => paid,
        Err(refusal) => return Ok(format!("refused with {}", refused(refusal))),
    };
    let mut told = vec!["accepted".to_string()];
    told.extend(payments(paid));
    if let (0x07 | 0x08, Some(n)) = (command[0], channel(command)) {
        told.push(deadline(book, n)?);
    }
    Ok(told.join(", "))
}

/// Payments and fee above zero.
fn payments(paid: Payments) -> impl Iterator<Item = String> {
    let each = [
        ("to the customer", paid.customer),
        ("to the merchant", paid.merchant),
        ("fee", paid.fee),
    ];
    let some = each.into_iter().filter(|(_, cents)| *cents > Cents(0));
    some.map(|(what, cents)| format!("{cents} cents {what}"))
}

fn refused(refusal: Refusal) -> String {
    format!("{}: {refusal}", refusal.number())
}

fn deadline(book: &Book, n: u16) -> Result<String, Refusal> {
    let deadline = book.read(usize::from(n))?.deadline;
    Ok(format!("deadline {}", Moment(deadline)))
}

/// The channel that is due next, with the sum and the deadline by which it is, if there is one.
fn due(book: &Book) -> Result<String, Refusal> {
    let Some(n) = book.due() else {
        return Ok("no channel is due".to_string());
    };
    let held = book.read(usize::from(n))?.held;
    let deadline = deadline(book, n.into())?;
    Ok(format!(
        "due next: channel {n}, {held} cents held, {deadline}"
    ))
}
