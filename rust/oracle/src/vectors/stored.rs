//! The journals under `tests/journals`.
use std::fs;
use std::path::Path;

/// Each journal, with what the statement program prints of it; there are ten at least.
pub fn journals() -> Vec<(Vec<u8>, String)> {
    let folder = Path::new(env!("CARGO_MANIFEST_DIR")).join("../../tests/journals");
    let mut journals = Vec::new();
    for entry in fs::read_dir(folder).unwrap() {
        let path = entry.unwrap().path();
        if path.extension().is_some_and(|end| end == "bin") {
            let text = fs::read_to_string(path.with_extension("txt")).unwrap();
            journals.push((fs::read(path).unwrap(), text));
        }
    }
    assert!(journals.len() >= 10, "{} journals", journals.len());
    journals
}
