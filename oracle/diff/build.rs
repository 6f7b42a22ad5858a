//! Links the proved library where it is at hand: VCPU_ABI names the archive
//! of crate words_entry and VCPU_IN_PLACE that of crates in_place_entry_*, lowered for this
//! machine. Without them the program is built with the model alone as a
//! subject.

use std::path::Path;
use std::process::exit;

/// Each archive's variable, and the cfg that its subject stands under.
const ARCHIVES: [(&str, &str); 2] = [("VCPU_ABI", "has_abi"), ("VCPU_IN_PLACE", "has_in_place")];

fn main() {
    for (variable, cfg) in ARCHIVES {
        println!("cargo:rustc-check-cfg=cfg({cfg})");
        println!("cargo:rerun-if-env-changed={variable}");
        let Ok(file) = std::env::var(variable) else {
            continue;
        };
        link(variable, Path::new(&file));
        println!("cargo:rustc-cfg={cfg}");
    }
}

fn link(variable: &str, file: &Path) {
    let Ok(file) = file.canonicalize() else {
        stop(variable, file, "is not there");
    };
    let stem = file.file_name().and_then(|name| name.to_str());
    let Some(name) = stem.and_then(|name| name.strip_prefix("lib")?.strip_suffix(".a")) else {
        stop(variable, &file, "is no archive by its name, libNAME.a");
    };
    let folder = file.parent().unwrap_or(Path::new("/"));
    println!("cargo:rerun-if-changed={}", file.display());
    println!("cargo:rustc-link-search=native={}", folder.display());
    println!("cargo:rustc-link-lib=static={name}");
}

fn stop(variable: &str, file: &Path, why: &str) -> ! {
    eprintln!("{variable} is {}, which {why}.", file.display());
    eprintln!("Set it to the archive that tools/archive writes, or leave it unset.");
    exit(1)
}
