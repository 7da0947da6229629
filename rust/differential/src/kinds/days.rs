//! Accepted closings by the days that their deadlines fall on, which every run must meet.
use oracle::{Book, Command, Shut, Weekday, DAY, DAYS, LARGEST, LONGEST_DELAY, SHORTEST_DELAY};

/// Ends of closings with a moved deadline, by the clock.
pub const ANSWERED: &str = "07 accepted a second before a moved deadline";
pub const DISPUTED: &str = "09 accepted a second before a moved deadline";
pub const TOO_EARLY: &str = "0A refused a second before a moved deadline";
pub const STILL_EARLY: &str = "0A refused at clock plus delay, the deadline being moved";
pub const NOT_ANSWERED: &str = "07 refused at a moved deadline";
pub const NOT_DISPUTED: &str = "09 refused at a moved deadline";
pub const SETTLED: &str = "0A accepted at a moved deadline";
pub const SETTLED_LATER: &str = "0A accepted a second after a moved deadline";
/// Deadlines that a list would move which is none, or a day that is not counted.
pub const UNLISTED: &str = "deadlines on a day of a list that is none";
pub const UNCOUNTED: &str = "deadlines on a day that is not counted";
/// Deadlines that fall on different seconds and are moved to one.
pub const EQUAL: &str = "deadlines moved to the same second";

/// An accepted 08 or 07: whether it answers an 08, what is shut, the clock, the delay, and the
/// second that the deadline falls on and was moved to.
struct Seen<'a> {
    opcode: u8,
    answers: bool,
    shut: &'a Shut,
    clock: u64,
    delay: u32,
    falls: u64,
    deadline: u64,
}

type Kind = (&'static str, fn(&Seen) -> bool);

const KINDS: [Kind; 27] = [
    ("08 with a moved deadline", |it| {
        it.moved() && it.opcode == 8
    }),
    ("07 with a moved deadline", |it| {
        it.moved() && it.opcode == 7 && !it.answers
    }),
    ("07 with a moved deadline that answers an 08", |it| {
        it.moved() && it.answers
    }),
    ("deadlines moved from Saturday to Monday", |it| {
        it.on(Weekday::Saturday) && it.days() == 2
    }),
    ("deadlines moved from Sunday to Monday", |it| {
        it.on(Weekday::Sunday) && it.days() == 1
    }),
    ("deadlines moved from Saturday 00:00:00", |it| {
        it.on(Weekday::Saturday) && it.falls % DAY == 0
    }),
    ("deadlines moved from Sunday 23:59:59", |it| {
        it.on(Weekday::Sunday) && it.deadline - it.falls == 1
    }),
    ("deadlines moved from a Friday", |it| it.on(Weekday::Friday)),
    ("deadlines moved from a weekday to the next", |it| {
        it.moved() && it.named() && it.days() == 1
    }),
    ("deadlines moved from a listed 00:00:00", |it| {
        it.moved() && it.named() && it.falls % DAY == 0
    }),
    ("deadlines moved from a listed 23:59:59", |it| {
        it.named() && it.deadline - it.falls == 1
    }),
    ("deadlines moved from a listed Saturday", |it| {
        it.on(Weekday::Saturday) && it.named()
    }),
    ("deadlines moved over a listed Monday", |it| {
        it.on(Weekday::Sunday) && it.days() == 2
    }),
    ("deadlines moved over more than two weekends", |it| {
        it.days() > 16
    }),
    (
        "deadlines moved over 64 dates and the weekend behind",
        |it| it.days() == 66,
    ),
    ("deadlines moved by the shortest delay", |it| {
        it.moved() && it.delay == SHORTEST_DELAY
    }),
    ("deadlines moved by the longest delay", |it| {
        it.moved() && it.delay == LONGEST_DELAY
    }),
    ("deadlines moved into 2400", |it| {
        it.falls < LAST && it.deadline >= LAST
    }),
    ("deadlines moved after 2399", |it| {
        it.moved() && it.falls >= LAST
    }),
    ("deadlines moved above 2^63 - 1", |it| {
        it.falls <= LARGEST && it.deadline > LARGEST
    }),
    ("deadlines moved at the largest clock", |it| {
        it.moved() && it.clock == LARGEST
    }),
    ("deadlines kept at the largest clock", |it| {
        !it.moved() && it.clock == LARGEST
    }),
    ("deadlines kept on Friday 23:59:59", |it| {
        it.kept() && it.friday_last()
    }),
    ("deadlines kept on Monday 00:00:00", |it| {
        it.kept() && it.falls % (7 * DAY) == 4 * DAY
    }),
    ("deadlines kept after 2399", |it| {
        it.kept() && it.falls >= LAST
    }),
    ("deadlines kept on a weekend without a list", |it| {
        it.shut.listed == 0 && it.weekend()
    }),
    ("deadlines kept on a banking day beside dates", |it| {
        it.kept() && !it.shut.days.is_empty()
    }),
];

/// The first second after 2399.
const LAST: u64 = DAY * DAYS as u64;

impl Seen<'_> {
    /// What is seen of a command that left this book.
    fn new<'a>(book: &'a Book, command: &[u8], refusal: u8) -> Option<Seen<'a>> {
        let (0, [opcode @ (7 | 8), ..]) = (refusal, command) else {
            return None;
        };
        let n = Command::parse(command).ok()?.channel?;
        let channel = &book.channels[usize::from(n)];
        Some(Seen {
            opcode: *opcode,
            answers: *opcode == 7 && channel.remembered.in_08.is_some(),
            shut: &book.shut,
            clock: book.clock,
            delay: channel.delay,
            falls: book.clock + u64::from(channel.delay),
            deadline: channel.deadline,
        })
    }

    fn moved(&self) -> bool {
        self.deadline > self.falls
    }

    /// Whether the deadline stays where days are shut.
    fn kept(&self) -> bool {
        self.shut.listed == 1 && self.deadline == self.falls
    }

    /// How many days later the deadline is.
    fn days(&self) -> u64 {
        self.deadline / DAY - self.falls / DAY
    }

    /// Whether it was moved from this day of the week.
    fn on(&self, weekday: Weekday) -> bool {
        self.moved() && Weekday::of(self.falls / DAY) == weekday
    }

    fn weekend(&self) -> bool {
        matches!(
            Weekday::of(self.falls / DAY),
            Weekday::Saturday | Weekday::Sunday
        )
    }

    /// Whether the list has the day that it falls on.
    fn named(&self) -> bool {
        let day = self.falls / DAY;
        self.shut.days.iter().any(|named| u64::from(*named) == day)
    }

    fn friday_last(&self) -> bool {
        self.falls % (7 * DAY) == 2 * DAY - 1
    }
}

/// The names of all these kinds.
pub fn names() -> impl Iterator<Item = &'static str> {
    let ends = [
        ANSWERED,
        DISPUTED,
        TOO_EARLY,
        STILL_EARLY,
        NOT_ANSWERED,
        NOT_DISPUTED,
    ];
    let others = [SETTLED, SETTLED_LATER, UNLISTED, UNCOUNTED, EQUAL];
    let closings = KINDS.iter().map(|(name, _)| *name);
    closings.chain(ends).chain(others)
}

/// The kinds of a command with this answer.
pub fn kinds<'a>(
    book: &'a Book,
    command: &[u8],
    refusal: u8,
) -> impl Iterator<Item = &'static str> + use<'a> {
    let seen = Seen::new(book, command, refusal);
    let found = KINDS
        .iter()
        .filter(move |(_, kind)| seen.as_ref().is_some_and(kind));
    found.map(|(name, _)| *name)
}
