//! A book with a channel that is about to be closed.
use crate::lives::Terms;
use crate::opening::{Given, Opening};
use crate::pair::{same, Outcome, Pair};
use crate::parts::World;
use crate::rng::Rng;
use oracle::{LARGEST, LONGEST_DELAY, SHORTEST_DELAY};

/// The book, the terms of its channel, and the second on which the deadline of a closing falls.
#[derive(Clone)]
pub struct Desk {
    pub pair: Pair,
    terms: Terms,
    pub n: u16,
    pub falls: u64,
}

impl Desk {
    /// A book that is opened with these dates, in which the channel is open and the clock so that a
    /// deadline falls on this second.
    pub fn new(
        rng: &mut Rng,
        dates: Option<Vec<u32>>,
        falls: u64,
        world: &mut World,
    ) -> Result<Desk, String> {
        let id = [rng.pick(&[0, 0xff]); 16];
        let mut pair = Pair::fresh(id)?;
        let how = Opening::With(Given {
            dates,
            ..Given::default()
        });
        same("opening", &pair.open(&id, &how, &mut world.tally)?, &0)?;
        let n = rng.pick(&[0, 1, 63]);
        let (clock, delay) = before(rng, falls);
        let terms = Terms::new(rng, &world.wallet, id, n, &[2, 3, 4]).delayed(delay);
        let mut desk = Desk {
            pair,
            terms,
            n,
            falls,
        };
        desk.open(world)?;
        desk.accepted(1, clock, world)?;
        Ok(desk)
    }

    /// Establishes and funds the channel.
    fn open(&mut self, world: &mut World) -> Outcome {
        for opcode in [2, 3, 4] {
            self.accepted(opcode, 0, world)?;
        }
        Ok(())
    }

    /// Goes on with another channel of the same terms, which is open too.
    pub fn another(&mut self, world: &mut World) -> Outcome {
        self.n = (self.n + 1) % 64;
        self.terms = self.terms.of_channel(self.n);
        self.open(world)
    }

    /// Gives both books the right command of this kind; an 01 sets the clock to this time. Gives
    /// the refusal, or 0.
    pub fn file(&mut self, opcode: u8, time: u64, world: &mut World) -> Result<u8, String> {
        let plan = self.terms.plan(opcode, time);
        let command = plan.write(|hand, message| world.wallet.sign(hand, message));
        let answer = self.pair.apply(&command, &mut world.tally)?;
        Ok(answer.refusal)
    }

    /// The same with a command that is to be accepted.
    pub fn accepted(&mut self, opcode: u8, time: u64, world: &mut World) -> Outcome {
        let what = format!("answer to {opcode:02X}");
        same(&what, &self.file(opcode, time, world)?, &0)
    }

    /// The deposits of the channel together.
    pub fn total(&self) -> u64 {
        self.terms.total()
    }

    /// The deadline that the channel has.
    pub fn deadline(&self) -> u64 {
        self.pair.oracle.channels[usize::from(self.n)].deadline
    }
}

/// A clock and a delay after which a deadline falls on this second: the largest clock where it can
/// be.
fn before(rng: &mut Rng, falls: u64) -> (u64, u32) {
    let between = SHORTEST_DELAY + rng.below((LONGEST_DELAY - SHORTEST_DELAY) as usize) as u32;
    let delays = [SHORTEST_DELAY, 86_400, 172_800, between, LONGEST_DELAY];
    let clocks = delays.map(|delay| Some((falls.checked_sub(delay.into())?, delay)));
    let mut fitting: Vec<_> = clocks.into_iter().flatten().collect();
    fitting.retain(|(clock, _)| *clock <= LARGEST);
    let largest = fitting.iter().find(|(clock, _)| *clock == LARGEST).copied();
    largest.unwrap_or_else(|| rng.pick(&fitting))
}
