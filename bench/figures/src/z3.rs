//! z3 as a program of its own: it is started on a script, and what it says is read.

use std::fs;
use std::io;
use std::path::Path;
use std::process::Command;
use std::time::Instant;

/// z3 gives up after so many seconds.
pub const LIMIT: usize = 10;
/// z3 gives up if it needs so many megabytes.
pub const MEMORY: usize = 2_000;

/// What z3 says of a script.
#[derive(Clone, Copy, Debug, PartialEq, Eq)]
pub enum Said {
    Satisfiable,
    Unsatisfiable,
    /// It stopped at the limit of time.
    TimedOut,
    /// It stopped at the limit of memory.
    OutOfMemory,
    /// It said that it does not know.
    Unknown,
}

impl Said {
    pub fn word(self) -> &'static str {
        match self {
            Said::Satisfiable => "sat",
            Said::Unsatisfiable => "unsat",
            Said::TimedOut => "time out",
            Said::OutOfMemory => "memory",
            Said::Unknown => "unknown",
        }
    }
}

/// The version of z3, or none if it is not installed.
pub fn version() -> Option<String> {
    let output = Command::new("z3").arg("--version").output().ok()?;
    let text = String::from_utf8_lossy(&output.stdout);
    output.status.success().then(|| text.trim().to_string())
}

/// Writes the script to a file, starts z3 on it, and gives what it says and the
/// seconds from its start to its end. Anything that is no answer, such as an error
/// in the script, is an error.
pub fn decide(script: &str, file: &Path) -> io::Result<(Said, f64)> {
    fs::write(file, script)?;
    let began = Instant::now();
    let output = Command::new("z3")
        .arg("-smt2")
        .arg(format!("-T:{LIMIT}"))
        .arg(format!("-memory:{MEMORY}"))
        .arg(file)
        .output()?;
    let seconds = began.elapsed().as_secs_f64();
    // Out of memory is said to the standard error.
    let text = [output.stdout, output.stderr].concat();
    let said = match String::from_utf8_lossy(&text).trim() {
        "sat" => Said::Satisfiable,
        "unsat" => Said::Unsatisfiable,
        "timeout" => Said::TimedOut,
        "(error \"out of memory\")" => Said::OutOfMemory,
        "unknown" => Said::Unknown,
        text => {
            let file = file.display();
            return Err(io::Error::other(format!("z3 said of {file}: {text}")));
        }
    };
    Ok((said, seconds))
}
