//! A short comparison of library and oracle that sees every answer, with seeds of its own.
use differential::{run, Limit, Options};

#[test]
fn library_and_oracle_agree() {
    let options = Options {
        seed: 1_000_000,
        limit: Limit::Cases(20),
        part: None,
    };
    if let Err(text) = run(&options) {
        panic!("{text}");
    }
}
