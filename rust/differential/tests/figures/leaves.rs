//! Document 02 No. 5: a leaf counts once in a channel.
use crate::desk::{paid, plan, refused, wallet, Desk, ID};
use differential::plan::Plan;
use finaruvom::raw::{Answer, Leaves};
use finaruvom::{check, Book, Cents, Status};

/// A command that the merchant signs with this leaf.
fn by(opcode: u8, leaf: u32) -> Plan {
    let mut plan = plan(opcode, [700, 300]);
    plan.signers[0].leaf = Some(leaf);
    plan
}

/// Carries a command out that the merchant signs with this leaf.
fn file(desk: &mut Desk, opcode: u8, leaf: u32) {
    let answer = desk.file(&by(opcode, leaf));
    assert_eq!(answer.refusal, 0, "{opcode:02X} with leaf {leaf}");
}

/// The answer to a 09 with this leaf, without its chain steps, which are those of the signature's
/// check. A refused one changes nothing.
fn dispute(desk: &mut Desk, leaf: u32) -> Answer {
    let before = desk.book.clone();
    let command = by(0x09, leaf).write(|hand, message| wallet().sign(hand, message));
    let message = [&command[..1], &ID, &command[1..35]].concat();
    let verdict = check(&desk.channel().merchant.key, &message, &command[35..]).unwrap();
    let answer = *desk.book.apply(&command).as_raw();
    assert_eq!((verdict.good, verdict.leaf), (true, leaf));
    assert_eq!(answer.steps, verdict.steps);
    assert_eq!(desk.book == before, answer.refusal != 0, "leaf {leaf}");
    Answer { steps: 0, ..answer }
}

/// The leaves that stand in the channel.
fn leaves(desk: &Desk) -> [u32; 2] {
    let Leaves { first, second } = desk.channel().leaves;
    [first, second]
}

/// The desk with its book changed.
fn lent(desk: &Desk, change: impl Fn(&mut finaruvom::raw::Book)) -> Desk {
    let mut raw = desk.book.as_raw().clone();
    change(&mut raw);
    let book = Book::from_raw(raw);
    Desk { book }
}

/// The desk with these leaves in its channel.
fn lent_leaves(desk: &Desk, first: u32, second: u32) -> Desk {
    lent(desk, |raw| {
        raw.channels[0].leaves = Leaves { first, second }
    })
}

#[test]
fn leaves_of_08_and_07() {
    let mut desk = Desk::answered();
    assert_eq!(dispute(&mut desk, 7), refused(16));
    assert_eq!(dispute(&mut desk, 9), refused(16));
    assert_eq!(desk.book.read(0).unwrap().held, Cents(700));
    assert_eq!(dispute(&mut desk, 8), paid(0, 700));
    assert_eq!(desk.book.read(0).unwrap().status, Status::Closed);
}

#[test]
fn leaf_of_07_alone() {
    for other in [0, 1, 7, 8, 256, 511, 512, 1_022, 1_023] {
        let mut desk = Desk::closing();
        assert_eq!(dispute(&mut desk, 9), refused(16));
        assert_eq!(dispute(&mut desk, other), paid(0, 700), "{other}");
    }
}

#[test]
fn leaf_0() {
    let mut desk = Desk::open();
    file(&mut desk, 0x07, 0);
    assert_eq!(dispute(&mut desk, 0), refused(16));
    assert_eq!(dispute(&mut desk, 256), paid(0, 700));

    let mut desk = Desk::open();
    file(&mut desk, 0x08, 0);
    file(&mut desk, 0x07, 9);
    assert_eq!(dispute(&mut desk, 0), refused(16));
    assert_eq!(dispute(&mut desk, 512), paid(0, 700));

    assert_eq!(dispute(&mut Desk::closing(), 0), paid(0, 700));
    assert_eq!(dispute(&mut Desk::answered(), 0), paid(0, 700));
}

#[test]
fn answer_with_the_leaf_of_08() {
    let mut desk = Desk::open();
    file(&mut desk, 0x08, 7);
    file(&mut desk, 0x07, 7);
    assert_eq!(leaves(&desk), [7, 7]);
    assert_eq!(dispute(&mut desk, 7), refused(16));
    assert_eq!(dispute(&mut desk, 9), paid(0, 700));
}

/// A 07 whose customer's signature is bad, though the merchant's is good.
#[test]
fn refused_07_is_forgotten() {
    for make in [Desk::open, Desk::merchant_closing] {
        let mut desk = make();
        let before = leaves(&desk);
        let mut close = by(0x07, 8);
        close.signers[1].party = 2;
        assert_eq!(desk.file(&close).refusal, 12);
        assert_eq!(leaves(&desk), before);
        file(&mut desk, 0x07, 9);
        assert_eq!(dispute(&mut desk, 9), refused(16));
        assert_eq!(dispute(&mut desk, 8), paid(0, 700));
    }
}

/// A bad signature is told by 11, whatever leaf it names.
#[test]
fn bad_signatures() {
    for leaf in [0, 9] {
        let mut desk = Desk::open();
        file(&mut desk, 0x07, leaf);
        let command = by(0x09, leaf).write(|hand, message| wallet().sign(hand, message));
        // Of C, a chain's string, the path, and the one-time type.
        for at in [8, 40, 1_451, 7] {
            let mut bad = command.clone();
            bad[35 + at] ^= 1;
            assert_eq!(desk.book.apply(&bad).as_raw().refusal, 11);
        }
        assert_eq!(dispute(&mut desk, leaf), refused(16));
    }
}

/// Channel 1 has the same keys, and its own leaves.
#[test]
fn another_channel() {
    let mut desk = lent(&Desk::answered(), |raw| {
        raw.channels[1] = raw.channels[0];
        raw.channels[1].leaves = Leaves {
            first: 8,
            second: 0,
        };
    });
    let mut elsewhere = by(0x09, 8);
    (elsewhere.n, elsewhere.signed.2) = (1, 1);
    assert_eq!(desk.file(&elsewhere).refusal, 16);
    assert_eq!(dispute(&mut desk, 8), paid(0, 700));
    elsewhere.signers[0].leaf = Some(9);
    assert_eq!(desk.file(&elsewhere).refusal, 0);
}

/// A 07 from an open channel writes both places, whatever stood there; an answer the second.
#[test]
fn what_is_written() {
    assert_eq!(leaves(&Desk::new()), [0, 0]);
    let mut direct = lent_leaves(&Desk::open(), 8, 8);
    file(&mut direct, 0x07, 9);
    assert_eq!(leaves(&direct), [9, 9]);
    assert_eq!(dispute(&mut direct, 8), paid(0, 700));

    let mut closing = lent_leaves(&Desk::open(), 8, 8);
    file(&mut closing, 0x08, 7);
    assert_eq!(leaves(&closing), [7, 7]);
    let mut answered = lent_leaves(&closing, 7, 8);
    file(&mut answered, 0x07, 9);
    assert_eq!(leaves(&answered), [7, 9]);
    assert_eq!(dispute(&mut answered, 8), paid(0, 700));
}

/// The commands that write no leaf, accepted.
#[test]
fn what_stays() {
    let rows: [(u8, [u64; 2], Desk); 9] = [
        (0x01, [4_600, 0], Desk::closing()),
        (0x02, [900, 100], Desk::new()),
        (0x03, [900, 0], Desk::established()),
        (0x04, [100, 0], Desk::funded()),
        (0x05, [0, 0], Desk::funded()),
        (0x06, [400, 600], Desk::open()),
        (0x09, [0, 0], Desk::closing()),
        (0x0a, [0, 0], Desk::closing().at(4_600)),
        (0x0a, [0, 0], Desk::merchant_closing().at(4_600)),
    ];
    for (opcode, numbers, desk) in rows {
        let mut desk = lent_leaves(&desk, 11, 12);
        assert_eq!(desk.give(opcode, numbers).refusal, 0, "{opcode:02X}");
        assert_eq!(leaves(&desk), [11, 12], "{opcode:02X}");
    }
}

/// Any numbers may stand there: the book is sound, and reads the same.
#[test]
fn any_leaves() {
    for desk in [Desk::open(), Desk::merchant_closing(), Desk::answered()] {
        let reading = desk.book.read(0);
        for leaf in [0, 1_023, 1_024, 1 << 31, u32::MAX] {
            let odd = lent_leaves(&desk, leaf, u32::MAX - leaf).book;
            assert_eq!(odd.read(0), reading);
            assert_eq!(Book::from_bytes(odd.as_bytes()).as_ref(), Ok(&odd));
        }
    }
    let odd = lent_leaves(&Desk::closing(), 1_024, (1 << 16) + 9);
    for leaf in [0, 9] {
        let mut desk = lent(&odd, |_| ());
        assert_eq!(dispute(&mut desk, leaf), paid(0, 700));
    }
}
