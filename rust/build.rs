//! Links the proved static library, `libwasm_c.a`, and the archive by which it allocates, `liblibc_c.a`.
//!
//! Both are in the folder that WASM_OPERATORS_LIBRARIES names, or else in `native`. They are for Linux on x86-64, for
//! processors of the level x86-64-v2.

use std::env;
use std::path::{Path, PathBuf};
use std::process::exit;

/// The libraries, in the order in which they are linked.
const LIBRARIES: [&str; 2] = ["wasm_c", "libc_c"];

const WHAT_TO_RUN: [&str; 4] = [
    "In a clone of the repository, on a machine with the Rattle kit, run",
    "    tools/dist",
    "    export WASM_OPERATORS_LIBRARIES=$PWD/dist/lib",
    "(tools/dist --unproved needs minutes and proves nothing; it writes dist-unproved/lib.)",
];

fn main() {
    check_target();
    println!("cargo::rerun-if-env-changed=WASM_OPERATORS_LIBRARIES");
    let folder = match env::var_os("WASM_OPERATORS_LIBRARIES") {
        Some(folder) => PathBuf::from(folder),
        None => Path::new(env!("CARGO_MANIFEST_DIR")).join("native"),
    };
    println!("cargo::rerun-if-changed={}", folder.display());
    println!("cargo::rustc-link-search=native={}", folder.display());
    for library in LIBRARIES {
        let file = folder.join(format!("lib{library}.a"));
        if !file.is_file() {
            report_missing(&file);
        }
        println!("cargo::rustc-link-lib=static={library}");
    }
}

/// Ends the build with an error if it is for another target than the libraries are.
fn check_target() {
    let of_target = |name: &str| env::var(format!("CARGO_CFG_TARGET_{name}")).unwrap_or_default();
    let target = [
        of_target("OS"),
        of_target("ARCH"),
        of_target("POINTER_WIDTH"),
    ];
    if target != ["linux", "x86_64", "64"] {
        let [os, arch, _] = target;
        println!(
            "cargo::error=The library of wasm-operators is for Linux on x86-64 (x86-64-v2), and this build is for {os} on {arch}."
        );
        exit(0)
    }
}

/// Ends the build with an error that has the commands to run.
fn report_missing(file: &Path) -> ! {
    println!("cargo::error={} is missing.", file.display());
    for line in WHAT_TO_RUN {
        println!("cargo::error={line}");
    }
    exit(0)
}
