//! Finds libfinaruvom.a and links it.
use std::env;
use std::path::{Path, PathBuf};

fn main() {
    println!("cargo:rerun-if-env-changed=FINARUVOM_LIB");
    let folder = folder();
    let archive = folder.join("libfinaruvom.a");
    println!("cargo:rerun-if-changed={}", archive.display());
    if !archive.is_file() {
        eprintln!("{} is missing.", archive.display());
        eprintln!("Make it with `tools/made finaruvom` at the repository's root,");
        eprintln!("or name the folder that holds it in FINARUVOM_LIB, by its whole path.");
        std::process::exit(1);
    }
    println!("cargo:rustc-link-search=native={}", folder.display());
    println!("cargo:folder={}", folder.display());
    println!("cargo:rustc-link-lib=static=finaruvom");
}

/// The folder of the archive: the one in `FINARUVOM_LIB`, or the repository's own.
fn folder() -> PathBuf {
    match env::var_os("FINARUVOM_LIB") {
        Some(named) => PathBuf::from(named),
        None => Path::new(env!("CARGO_MANIFEST_DIR")).join("../../target/staticlib"),
    }
}
