//! Times the library beside the oracle in one run: microseconds, the shortest of many tries.
mod checks;
mod commands;
mod journals;
mod payments;
mod signers;
mod timing;

fn main() {
    println!(
        "{:<44} {:>12} {:>12} {:>8}",
        "microseconds", "library", "oracle", "ratio"
    );
    checks::hashes();
    checks::checks();
    checks::leaf_keys();
    signers::signers();
    commands::commands();
    journals::journals();
    payments::payments();
}
