//! Writes the `mod` lines that compile the published text where it lies, with
//! no line changed. RISCV_VCPU_SRC names the published crate's folder.

use std::path::{Path, PathBuf};
use std::process::exit;

const FILES: [&str; 5] = ["consts", "registers", "sbi_ipi", "types", "vcpu"];

fn main() {
    println!("cargo:rerun-if-env-changed=RISCV_VCPU_SRC");
    let Ok(folder) = std::env::var("RISCV_VCPU_SRC") else {
        stop("RISCV_VCPU_SRC is not set");
    };
    let Ok(source) = Path::new(&folder).join("src").canonicalize() else {
        stop(&format!("RISCV_VCPU_SRC is {folder}, and it has no folder src"));
    };
    let mut text = String::new();
    for name in FILES {
        let file = source.join(format!("{name}.rs"));
        if !file.is_file() {
            stop(&format!("there is no file {}", file.display()));
        }
        println!("cargo:rerun-if-changed={}", file.display());
        text += &format!("#[path = {:?}]\npub mod {name};\n", file);
    }
    let out = PathBuf::from(std::env::var_os("OUT_DIR").expect("cargo sets OUT_DIR"));
    std::fs::write(out.join("published.rs"), text).expect("OUT_DIR can be written");
}

fn stop(why: &str) -> ! {
    eprintln!("{why}.");
    eprintln!("Set RISCV_VCPU_SRC to the folder of riscv_vcpu 0.6.3, the one with src/vcpu.rs in it.");
    exit(1)
}
