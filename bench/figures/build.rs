//! Compiles the search in C and links it.

use std::env;
use std::path::PathBuf;
use std::process::Command;

/// As bench/run compiles the machine in C.
const FLAGS: [&str; 6] = [
    "-std=c11",
    "-O3",
    "-Wall",
    "-Wextra",
    "-Werror",
    "-fno-tree-loop-distribute-patterns",
];

fn main() {
    let bench = directory("CARGO_MANIFEST_DIR").join("..");
    let made = directory("OUT_DIR");
    for source in ["search.c", "search.h", "sequencer.h", "limits.h"] {
        println!("cargo::rerun-if-changed={}", bench.join(source).display());
    }
    let header = bench.join("../include/thistlecart.h");
    println!("cargo::rerun-if-changed={}", header.display());
    let object = made.join("search.o");
    let archive = made.join("libmachine_search.a");
    let mut compile = Command::new("gcc");
    compile.args(FLAGS).arg("-c").arg(bench.join("search.c"));
    done(compile.arg("-o").arg(&object));
    done(Command::new("ar").arg("rcs").arg(&archive).arg(&object));
    println!("cargo::rustc-link-search=native={}", made.display());
    println!("cargo::rustc-link-lib=static=machine_search");
}

/// The directory that a variable of the environment names.
fn directory(variable: &str) -> PathBuf {
    env::var_os(variable).expect("cargo names it").into()
}

/// Runs a command that has to end well.
fn done(command: &mut Command) {
    let status = command.status();
    assert!(status.is_ok_and(|status| status.success()), "{command:?}");
}
