//! The calls of `vectors/bank.txt`, as bytes and numbers.

/// What is called, with what it is given to read.
pub enum Call {
    /// Commands, and of each line refusal, customer, merchant, steps and fee.
    Collect(Vec<u8>, Vec<[u64; 5]>),
    /// A list.
    Write(Vec<[u64; 3]>),
    /// Bytes.
    Read(Vec<u8>),
}

/// A call, what it is lent, and what it then answers and leaves. A payment is party, n and amount.
pub struct Given {
    pub call: Call,
    /// Entries of the lent list, or bytes of the buffer.
    pub room: usize,
    pub refusal: u8,
    pub payments: usize,
    /// The payments at the head of the list after a collecting or reading.
    pub list: Vec<[u64; 3]>,
    /// The whole buffer after a writing. EE stands in it before, and where it is not lent.
    pub buffer: Vec<u8>,
}

/// All calls of the file; there are 300.
pub fn given() -> Vec<Given> {
    let text = include_str!("../../vectors/bank.txt");
    let lines = text.lines().filter(|line| !line.starts_with('#'));
    let given: Vec<_> = lines.map(call).collect();
    assert_eq!(given.len(), 300);
    given
}

fn call(line: &str) -> Given {
    let words: Vec<&str> = line.split(' ').collect();
    let (before, after) = words.split_at(words.len() - 4);
    let ([name, parts @ .., room], ["->", refusal, payments, left]) = (before, after) else {
        panic!("{line}");
    };
    let call = match (*name, parts) {
        ("collect", [commands, lines]) => Call::Collect(bytes(commands), items(lines)),
        ("write", [list]) => Call::Write(items(list)),
        ("read", [string]) => Call::Read(bytes(string)),
        _ => panic!("{line}"),
    };
    let room = room.parse().unwrap();
    let (list, buffer) = match call {
        Call::Write(_) => (Vec::new(), bytes(left)),
        _ => (items(left), vec![0xee; room]),
    };
    assert_eq!(buffer.len(), room, "{line}");
    Given {
        call,
        room,
        refusal: refusal.parse().unwrap(),
        payments: payments.parse().unwrap(),
        list,
        buffer,
    }
}

/// The bytes of hexadecimal digits; a dash stands for none.
fn bytes(hex: &str) -> Vec<u8> {
    let digits = hex.trim_matches('-');
    let byte = |at| u8::from_str_radix(&digits[at..at + 2], 16).unwrap();
    (0..digits.len()).step_by(2).map(byte).collect()
}

/// The numbers of each item; a dash stands for no item.
fn items<const N: usize>(text: &str) -> Vec<[u64; N]> {
    let items = text.split(';').filter(|item| *item != "-");
    let numbers = |item: &str| {
        let numbers = item.split([':', ',']).map(|number| number.parse().unwrap());
        numbers.collect::<Vec<_>>().try_into().unwrap()
    };
    items.map(numbers).collect()
}
