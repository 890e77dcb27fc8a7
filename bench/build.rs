//! Compiles library.c against the library's header and links both: `PHEL_ARCHIVE`
//! names the folder of libphelgomrit.a.

use std::{env, path::Path, process::Command};

/// Compiles for x86-64.
const X86: &str = "../tools/x86";

fn run(command: &mut Command) {
    let status = command.status().expect("the tool is at hand");
    assert!(status.success(), "{command:?}");
}

fn main() {
    let folder = env::var("PHEL_ARCHIVE").expect("PHEL_ARCHIVE names a folder");
    let out = env::var("OUT_DIR").expect("cargo sets it");
    let object = format!("{out}/library.o");
    let archive = format!("{out}/liblent.a");
    run(Command::new(X86)
        .args([
            "cc",
            "-std=c11",
            "-O2",
            "-Wall",
            "-Wextra",
            "-Werror",
            "-I../include",
        ])
        .args(["-c", "library.c", "-o", &object]));
    run(Command::new(X86).args(["ar", "rcs", &archive, &object]));
    for file in ["library.c", "../include/phelgomrit.h"] {
        println!("cargo:rerun-if-changed={file}");
    }
    println!("cargo:rerun-if-env-changed=PHEL_ARCHIVE");
    println!(
        "cargo:rerun-if-changed={}",
        Path::new(&folder).join("libphelgomrit.a").display()
    );
    println!("cargo:rustc-link-search=native={out}");
    println!("cargo:rustc-link-search=native={folder}");
    println!("cargo:rustc-link-lib=static=lent");
    println!("cargo:rustc-link-lib=static=phelgomrit");
}
