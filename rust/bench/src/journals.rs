//! A journal of the shortest commands, as long as a statement may be.
use crate::commands::book;
use crate::timing::{best, row};
use differential::bridge::to_oracle;
use differential::wallet::Wallet;
use finaruvom::Line;
use oracle::Answer;

/// Times the run.
pub fn journals() {
    let book = book(&Wallet::default(), 3, 0);
    let journal: Vec<u8> = [0x0a, 0, 63].into_iter().cycle().take(65_536).collect();
    let mut lines = vec![Line::default(); journal.len() / 3];
    let library = best(|| book.clone(), |book| book.run(&journal, &mut lines));
    let same = to_oracle(book.as_raw());
    let mut lines = vec![Answer::default(); journal.len() / 3];
    let oracle = best(
        || same.clone(),
        |book| oracle::run(book, &journal, &mut lines),
    );
    row("run, 21,845 commands of 3 bytes", library, oracle);
}
