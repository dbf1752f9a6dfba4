//! Links the library's static archive, libthistlecart.a: the one in the directory
//! that THISTLECART_ARCHIVE names, or else in the repository's target/staticlib. From
//! the header come the constants, which a C program writes, and the accessors, which
//! are compiled as functions.

use std::env;
use std::fs;
use std::path::{Path, PathBuf};
use std::process::Command;

const FLAGS: [&str; 5] = ["-std=c11", "-O2", "-Wall", "-Wextra", "-Werror"];

fn main() {
    let package = directory("CARGO_MANIFEST_DIR").expect("cargo names it");
    let made = directory("OUT_DIR").expect("cargo names it");
    link_library(&package);
    let header = package.join("../../include/thistlecart.h");
    rerun_if_changed(&header);
    let gcc = |source: &str| {
        let source = package.join("src").join(source);
        rerun_if_changed(&source);
        let mut gcc = Command::new("gcc");
        gcc.args(FLAGS)
            .arg("-I")
            .arg(header.parent().expect("a directory"));
        gcc.arg(source);
        gcc
    };

    let program = made.join("constants");
    done(gcc("constants.c").arg("-o").arg(&program));
    let constants = done(&mut Command::new(&program));
    fs::write(made.join("constants.rs"), constants).expect("the constants are kept");

    let object = made.join("accessors.o");
    let archive = made.join("libaccessors.a");
    done(gcc("accessors.c").arg("-c").arg("-o").arg(&object));
    done(Command::new("ar").arg("rcs").arg(&archive).arg(&object));
    link(&made, "accessors");
}

/// The directory that a variable of the environment names.
fn directory(variable: &str) -> Option<PathBuf> {
    env::var_os(variable).map(PathBuf::from)
}

fn link_library(package: &Path) {
    let directory =
        directory("THISTLECART_ARCHIVE").unwrap_or_else(|| package.join("../../target/staticlib"));
    let archive = directory.join("libthistlecart.a");
    println!("cargo::rerun-if-env-changed=THISTLECART_ARCHIVE");
    rerun_if_changed(&archive);
    assert!(archive.exists(), "{} is missing", archive.display());
    link(&directory, "thistlecart");
}

fn rerun_if_changed(file: &Path) {
    println!("cargo::rerun-if-changed={}", file.display());
}

/// Runs a command that has to end well, and gives what it writes.
fn done(command: &mut Command) -> Vec<u8> {
    let output = command.output();
    let output = output.unwrap_or_else(|error| panic!("{command:?}: {error}"));
    let said = String::from_utf8_lossy(&output.stderr);
    assert!(output.status.success(), "{command:?}: {said}");
    output.stdout
}

fn link(directory: &Path, library: &str) {
    println!("cargo::rustc-link-search=native={}", directory.display());
    println!("cargo::rustc-link-lib=static={library}");
}
