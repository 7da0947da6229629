//! The lines of `vectors/days.txt`, as numbers. A date is its year, month and day.

pub type Date = [u32; 3];

/// A date, and its day number where it has one.
pub struct Day {
    pub date: Date,
    pub number: Option<u32>,
}

/// A list of dates, or none, and the opening's refusal, or 0.
pub struct List {
    pub dates: Option<Vec<Date>>,
    pub refusal: u8,
}

/// A list of dates, or none, a second on which a deadline falls, and the deadline.
pub struct Moved {
    pub dates: Option<Vec<Date>>,
    pub falls: u64,
    pub deadline: u64,
}

/// All lines of the file, by their kinds.
#[derive(Default)]
pub struct Given {
    pub days: Vec<Day>,
    pub lists: Vec<List>,
    pub moved: Vec<Moved>,
}

/// The lines of the file; there are 214, 11 and 270.
pub fn given() -> Given {
    let given = read(include_str!("../../vectors/days.txt"));
    let counts = [given.days.len(), given.lists.len(), given.moved.len()];
    assert_eq!(counts, [214, 11, 270]);
    given
}

fn read(text: &str) -> Given {
    let mut given = Given::default();
    for line in text.lines().filter(|line| !line.starts_with('#')) {
        match line.split(' ').collect::<Vec<_>>()[..] {
            ["day", year, month, day, "->", number] => given.days.push(Day {
                date: [year, month, day].map(parsed),
                number: (number != "21").then(|| parsed(number)),
            }),
            ["list", dates, "->", refusal] => given.lists.push(List {
                dates: list(dates),
                refusal: parsed(refusal),
            }),
            ["moved", dates, falls, "->", deadline] => given.moved.push(Moved {
                dates: list(dates),
                falls: parsed(falls),
                deadline: parsed(deadline),
            }),
            _ => panic!("{line}"),
        }
    }
    given
}

fn parsed<T: std::str::FromStr>(digits: &str) -> T {
    digits.parse().ok().expect(digits)
}

/// The dates of a list; a dash stands for an empty one, `none` for no list.
fn list(text: &str) -> Option<Vec<Date>> {
    let items = text.split(';').filter(|item| *item != "-");
    let date = |item: &str| {
        let parts = item.split('-').map(parsed);
        parts.collect::<Vec<_>>().try_into().expect(item)
    };
    (text != "none").then(|| items.map(date).collect())
}
