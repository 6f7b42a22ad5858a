//! Finds the proved static library of the thin entry for this machine, or says what to run. The other entry's comes with the host's
//! crate.

use std::env;
use std::path::{Path, PathBuf};

fn main() {
    println!("cargo:rerun-if-env-changed=CURBIZZOLU_LIB_DIR");
    let arch = env::var("CARGO_CFG_TARGET_ARCH").unwrap();
    let dir = match env::var_os("CURBIZZOLU_LIB_DIR") {
        Some(dir) => PathBuf::from(dir),
        None => Path::new(&env::var("CARGO_MANIFEST_DIR").unwrap()).join("../target").join(&arch),
    };
    println!("cargo:rustc-link-search=native={}", dir.display());
    let archive = dir.join("libwords_entry.a");
    println!("cargo:rerun-if-changed={}", archive.display());
    if !archive.is_file() {
        eprintln!("There is no {}: run 'tools/archive words_entry {arch}'.", archive.display());
        std::process::exit(1);
    }
    println!("cargo:rustc-link-lib=static=words_entry");
}
