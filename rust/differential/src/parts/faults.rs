//! Commands that are wrong in one to three things, locks that are one bit off, and leaves that are
//! remembered.
use super::World;
use crate::arbitrary;
use crate::maker::Maker;
use crate::pair::{Outcome, Pair};
use crate::rng::Rng;

/// Commands on one sound book, each on the book as it was.
pub fn case(rng: &mut Rng, world: &mut World) -> Outcome {
    let start = Pair::new(arbitrary::sound_book(rng, &world.wallet));
    let mut maker = Maker::new(rng, &mut world.wallet, channels(&start.oracle));
    for _ in 0..100 {
        let command = maker.wrong(&start.oracle);
        start.clone().apply(&command, &mut world.tally)?;
        world.tally.compared("commands wrong in some things");
    }
    for n in 0..64 {
        let unsigned = maker.unsigned_dispute(&start.oracle, n);
        start.clone().apply(&unsigned, &mut world.tally)?;
        world.tally.compared("disputes signed by nobody");
        let command = maker.dispute(&start.oracle, n);
        start.clone().apply(&command, &mut world.tally)?;
        world.tally.compared("disputes signed with any leaf");
    }
    Ok(())
}

/// Every channel, and the unused ones again, so that half of the commands or so are 02.
fn channels(book: &oracle::Book) -> Vec<u16> {
    let unused = |n: &u16| book.channels[usize::from(*n)].status == 0;
    let again = (0..64).filter(unused).flat_map(|n| [n; 8]);
    (0..64).chain(again).collect()
}
