//! Compiles the plain C filters at -O3 for the processor that the proved library is compiled for, and links both.

use std::env;
use std::path::{Path, PathBuf};
use std::process::Command;

fn run(command: &mut Command) {
    let status = command.status().unwrap_or_else(|e| panic!("{command:?}: {e}"));
    assert!(status.success(), "{command:?}: {status}");
}

fn main() {
    let out = PathBuf::from(env::var("OUT_DIR").expect("cargo sets OUT_DIR"));
    let here = PathBuf::from(env::var("CARGO_MANIFEST_DIR").expect("cargo sets CARGO_MANIFEST_DIR"));
    let object = out.join("chords.o");
    run(Command::new("gcc")
        .args(["-O3", "-march=x86-64-v2", "-Wall", "-Wextra", "-Wno-maybe-uninitialized", "-c", "c/chords.c", "-o"])
        .arg(&object)
        .current_dir(&here));
    let library = out.join("libchords.a");
    let _ = std::fs::remove_file(&library);
    run(Command::new("ar").arg("cr").arg(&library).arg(&object));
    let proved: &Path = &here.join("../crates/filters_c/out");
    println!("cargo:rustc-link-search=native={}", out.display());
    println!("cargo:rustc-link-search=native={}", proved.display());
    println!("cargo:rustc-link-lib=static=chords");
    println!("cargo:rustc-link-lib=static=filters_c");
    println!("cargo:rerun-if-changed=c");
    println!("cargo:rerun-if-changed={}", proved.join("libfilters_c.a").display());
}
