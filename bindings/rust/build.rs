//! Links the proved library: the archive that SOBUMIKEYO_LIB names, or the one that `rt lib` writes in this repository's crates/sobumikeyo.
use std::path::PathBuf;

const ARCHIVE: &str = "libsobumikeyo.a";

fn main() {
    println!("cargo:rerun-if-env-changed=SOBUMIKEYO_LIB");
    let archive = match std::env::var_os("SOBUMIKEYO_LIB") {
        Some(path) => PathBuf::from(path),
        None => PathBuf::from(concat!(env!("CARGO_MANIFEST_DIR"), "/../../crates/sobumikeyo/out")).join(ARCHIVE),
    };
    if !archive.ends_with(ARCHIVE) || !archive.is_file() {
        eprintln!(
            "no library at {}: write it with `rt lib` in crates/sobumikeyo, or name another {ARCHIVE} by SOBUMIKEYO_LIB",
            archive.display()
        );
        std::process::exit(1);
    }
    println!("cargo:rerun-if-changed={}", archive.display());
    println!("cargo:rustc-link-search=native={}", archive.with_file_name("").display());
    println!("cargo:rustc-link-lib=static=sobumikeyo");
}
