//! Links liblms_bench.a, which lies beside libfinaruvom.a.
use std::env;
use std::path::PathBuf;

fn main() {
    let folder =
        PathBuf::from(env::var_os("DEP_FINARUVOM_FOLDER").expect("finaruvom tells its folder"));
    let archive = folder.join("liblms_bench.a");
    println!("cargo:rerun-if-changed={}", archive.display());
    if !archive.is_file() {
        eprintln!(
            "{} is missing: `tools/made lms_bench` makes it.",
            archive.display()
        );
        std::process::exit(1);
    }
    println!("cargo:rustc-link-lib=static=lms_bench");
}
