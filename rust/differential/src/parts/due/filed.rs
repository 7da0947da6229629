//! Books in which commands have moved the deadlines of several closings to the same Monday.
use crate::kinds::due::filed;
use crate::ledger::Ledger;
use crate::lives::Terms;
use crate::opening::{Given, Opening};
use crate::pair::{same, Outcome, Pair};
use crate::parts::World;
use crate::plan::Plan;
use crate::rng::Rng;
use oracle::{Answer, DAY, HIGHEST_RATE};

/// Channels of which a book uses some.
const NUMBERS: [u16; 8] = [0, 1, 2, 31, 32, 33, 62, 63];

/// The delay of every channel.
const DELAY: u32 = 86_400;

/// Ways to close: by the merchant, by the customer, and by the customer in answer.
const WAYS: [&[u8]; 3] = [&[8], &[7], &[8, 7]];

/// Seconds behind Friday 00:00:00 on which a deadline falls: its last one, those that are moved to
/// Monday 00:00:00, and those that are this one or the next.
const FRIDAY: u64 = DAY - 1;
const WEEKEND: [u64; 4] = [DAY, DAY + 1, 2 * DAY, 3 * DAY - 1];
const MONDAY: [u64; 2] = [3 * DAY, 3 * DAY + 1];

/// How a channel is closed: the deposits, what a customer's closing keeps of them, and the second
/// behind Friday 00:00:00 on which the deadline falls.
struct Closing {
    way: &'static [u8],
    deposits: [u64; 2],
    kept: u64,
    falls: u64,
}

/// One book, some channels that are closed, and settled in the order of the due list.
pub fn case(rng: &mut Rng, world: &mut World) -> Outcome {
    let id = [rng.pick(&[0, 0xff]); 16];
    let friday = DAY * (7 * (1 + rng.below(20_000) as u64) + 1);
    let numbers: [u16; 4] = rng.distinct(&NUMBERS);
    let mut accounts = Vec::new();
    for (n, closing) in numbers.into_iter().zip(closings(rng)) {
        let terms = Terms::new(rng, &world.wallet, id, n, &[]).delayed(DELAY);
        accounts.push((terms.of_deposits(closing.deposits), closing));
    }
    let mut desk = Desk::open(rng, id, world)?;
    for (terms, _) in &accounts {
        desk.fund(terms, world)?;
    }
    for (terms, closing) in &accounts {
        desk.clock(friday + closing.falls - u64::from(DELAY), world)?;
        desk.close(terms, closing, world)?;
    }
    desk.settle(accounts.len(), world)?;
    world.tally.compared("due lists of filed books");
    Ok(())
}

/// In the order of their deadlines: a merchant's closing of 1,000 and a customer's that keeps a cent
/// less, as much or a cent more, on one Monday; a small one before or a large one after it; and any.
fn closings(rng: &mut Rng) -> Vec<Closing> {
    let closing = |way, deposits, kept, falls| Closing {
        way,
        deposits,
        kept,
        falls,
    };
    let kept = 999 + rng.seed() % 3;
    let merchants = closing(&[8], [900, 100], 0, rng.pick(&WEEKEND));
    let customers = closing(rng.pick(&WAYS[1..]), [1_001, 0], kept, rng.pick(&WEEKEND));
    let aside = match rng.below(2) {
        0 => closing(&[8], [0, 1], 0, FRIDAY),
        _ => closing(&[8], [2_000, 2_000], 0, MONDAY[1]),
    };
    let falls = [&[FRIDAY][..], &WEEKEND, &MONDAY].concat();
    let part = rng.pick(&[0, 1, 999, 1_000]);
    let any = closing(
        rng.pick(&WAYS),
        [part, 1_000 - part],
        part,
        rng.pick(&falls),
    );
    let mut closings = vec![merchants, customers, aside, any];
    closings.sort_by_key(|closing| closing.falls);
    closings
}

/// The book and its ledger.
struct Desk {
    pair: Pair,
    ledger: Ledger,
}

impl Desk {
    /// A book of any fee that shuts the weekends.
    fn open(rng: &mut Rng, id: [u8; 16], world: &mut World) -> Result<Desk, String> {
        let mut pair = Pair::fresh(id)?;
        let how = Opening::With(Given {
            fee: rng.pick(&[0, 1, 250, HIGHEST_RATE]),
            dates: Some(Vec::new()),
            ..Given::default()
        });
        same("opening", &pair.open(&id, &how, &mut world.tally)?, &0)?;
        let ledger = Ledger::new(pair.oracle.rate);
        Ok(Desk { pair, ledger })
    }

    /// Gives both books a command that is to be accepted, and reads both.
    fn file(&mut self, command: &[u8], world: &mut World) -> Result<Answer, String> {
        let answer = self.pair.apply(command, &mut world.tally)?;
        let what = format!("answer to {:02X}", command[0]);
        same(&what, &answer.refusal, &0)?;
        self.ledger.enter(command, &answer, &self.pair.library)?;
        self.pair.read(&mut world.tally)?;
        Ok(answer)
    }

    /// The same with a command that is still to be signed.
    fn sign(&mut self, plan: &Plan, world: &mut World) -> Outcome {
        let command = plan.write(|hand, message| world.wallet.sign(hand, message));
        self.file(&command, world).map(|_| ())
    }

    /// Sets the clock.
    fn clock(&mut self, time: u64, world: &mut World) -> Outcome {
        let command = [&[1][..], &time.to_be_bytes()].concat();
        self.file(&command, world).map(|_| ())
    }

    /// Establishes the channel, and funds it by each side that deposits something.
    fn fund(&mut self, terms: &Terms, world: &mut World) -> Outcome {
        let [customer, merchant] = terms.plan(2, 0).numbers;
        for (opcode, deposit) in [(2, 1), (3, customer), (4, merchant)] {
            if deposit > 0 {
                self.sign(&terms.plan(opcode, 0), world)?;
            }
        }
        Ok(())
    }

    /// Closes the channel.
    fn close(&mut self, terms: &Terms, closing: &Closing, world: &mut World) -> Outcome {
        for opcode in closing.way {
            let mut plan = terms.plan(*opcode, 0);
            plan.numbers = [closing.kept, terms.total() - closing.kept];
            self.sign(&plan, world)?;
        }
        Ok(())
    }

    /// Settles so many channels, each when it is due and at its deadline, which pays what it held.
    fn settle(&mut self, count: usize, world: &mut World) -> Outcome {
        for _ in 0..count {
            let due = self.pair.due(&mut world.tally)?;
            let n = due.ok_or("none due before the last is settled")?;
            filed(&self.pair.oracle, n).for_each(|kind| world.tally.compared(kind));
            let before = oracle::read(&self.pair.oracle, n.into());
            if self.pair.oracle.clock < before.deadline {
                self.clock(before.deadline, world)?;
            }
            let answer = self.file(&[0x0a, 0, n], world)?;
            let expected = match before.status {
                4 => [0, before.held],
                _ => [before.held, 0],
            };
            let paid = [answer.customer, answer.merchant + answer.fee];
            same("paid", &paid, &expected)?;
        }
        same("due at last", &self.pair.due(&mut world.tally)?, &None)
    }
}
