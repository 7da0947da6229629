//! Payments written, and read.
use crate::timing::{best, row};
use differential::bridge::bank::to_payment;
use differential::rng::Rng;
use finaruvom::{bank, ENTRY_SIZE};
use oracle::bank::Payment;

const COUNT: usize = 1_000;

/// Times both on the same payments, whose amounts have any number of digits, and on the same bytes.
pub fn payments() {
    let rng = &mut Rng::new(1);
    let list: Vec<Payment> = (0..COUNT).map(|_| payment(rng)).collect();
    let bytes = write(&list);
    read(&list, &bytes);
}

fn payment(rng: &mut Rng) -> Payment {
    let largest = 10u64.pow(1 + rng.below(15) as u32) - 1;
    Payment {
        party: rng.pick(&[1, 2]),
        channel: rng.below(64) as u64,
        amount: 1 + rng.number() % largest,
    }
}

/// The wrapper's payments with the same values.
fn wrapped(list: &[Payment]) -> Vec<bank::Payment> {
    list.iter()
        .map(to_payment)
        .collect::<Option<_>>()
        .expect("parties 1 and 2")
}

/// Times the writing of a list, and gives what both write.
fn write(list: &[Payment]) -> Vec<u8> {
    let same = wrapped(list);
    let [mut buffer, mut expected] = [(); 2].map(|()| vec![0; ENTRY_SIZE * COUNT]);
    let library = best(|| (), |()| bank::write(&same, &mut buffer));
    let oracle = best(|| (), |()| oracle::bank::write(list, &mut expected));
    assert_eq!(bank::write(&same, &mut buffer), Ok(COUNT));
    assert!(buffer == expected);
    row("write, 1,000 payments", library, oracle);
    buffer
}

/// Times the reading of a list from its bytes.
fn read(list: &[Payment], bytes: &[u8]) {
    let mut back = vec![bank::Payment::default(); COUNT];
    let mut expected = vec![list[0]; COUNT];
    let library = best(|| (), |()| bank::read(bytes, &mut back));
    let oracle = best(|| (), |()| oracle::bank::read(bytes, &mut expected));
    assert_eq!(bank::read(bytes, &mut back), Ok(COUNT));
    assert!(back == wrapped(list) && expected == list);
    row("read, 1,000 payments", library, oracle);
}
