//! The shortest of many tries.
use std::hint::black_box;
use std::time::{Duration, Instant};

/// Time to spend on tries of one call.
const BUDGET: Duration = Duration::from_millis(300);

/// Prints one row: what is timed, library, oracle and their ratio.
pub fn row(name: &str, library: Duration, oracle: Duration) {
    let [library, oracle] = [library, oracle].map(|time| time.as_nanos() as f64 / 1_000.0);
    let ratio = library / oracle;
    println!("{name:<44} {library:>12.3} {oracle:>12.3} {ratio:>8.2}");
}

/// The shortest time of a call on a value made anew for each try, without what reading the time
/// takes.
pub fn best<T, R>(make: impl FnMut() -> T, call: impl FnMut(&mut T) -> R) -> Duration {
    let reading = shortest(|| (), |()| ());
    shortest(make, call).saturating_sub(reading)
}

fn shortest<T, R>(mut make: impl FnMut() -> T, mut call: impl FnMut(&mut T) -> R) -> Duration {
    let begin = Instant::now();
    let mut shortest = Duration::MAX;
    while begin.elapsed() < BUDGET {
        let mut value = black_box(make());
        let start = Instant::now();
        black_box(call(&mut value));
        shortest = shortest.min(start.elapsed());
    }
    shortest
}
