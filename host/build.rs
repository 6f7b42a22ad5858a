//! Finds the proved static library for the processor that is built for, or says what to run.

use std::env;
use std::path::{Path, PathBuf};

fn main() {
    println!("cargo:rerun-if-env-changed=CURBIZZOLU_LIB_DIR");
    let arch = env::var("CARGO_CFG_TARGET_ARCH").unwrap_or_default();
    let none = env::var("CARGO_CFG_TARGET_OS").is_ok_and(|os| os == "none");
    // riscv64gc is lp64d, riscv64imac lp64, and a linker takes no object of the other; a stable compiler tells no more of it
    let soft = env::var("TARGET").is_ok_and(|target| !target.starts_with("riscv64gc"));
    let processor = match (none, arch.as_str()) {
        (true, "riscv64") if soft => format!("{arch}-none-lp64"),
        (true, _) => format!("{arch}-none"),
        (false, _) => arch,
    };
    let dir = match env::var_os("CURBIZZOLU_LIB_DIR") {
        Some(dir) => PathBuf::from(dir),
        None => Path::new(&env::var("CARGO_MANIFEST_DIR").unwrap())
            .join("../target")
            .join(&processor),
    };
    let archive = dir.join("libin_place.a");
    println!("cargo:rerun-if-changed={}", archive.display());
    if !archive.is_file() {
        eprintln!("There is no {}.", archive.display());
        eprintln!("Run 'tools/archive in_place {processor}' at the top of the repository, or set CURBIZZOLU_LIB_DIR to its folder.");
        std::process::exit(1);
    }
    println!("cargo:rustc-link-search=native={}", dir.display());
    println!("cargo:rustc-link-lib=static=in_place");
}
