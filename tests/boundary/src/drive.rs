//! The driver of examples/: `drive RULE | CLIP`. Each is a file, if there is a slash in
//! its name, by its path from the repository, or else bytes in hex. The answer is the
//! driver's status and the lines that it prints. It runs under valgrind, which ends with
//! a status of its own if there is an error; and the code that it writes has to be what
//! the second program emits.

use crate::entry::Entry;
use crate::program::{of, start, target, ROOT};
use second::emit::emit;
use second::entry::split;
use second::instruction::write;
use second::load::load;
use second::text::bytes_of_words;
use std::fs;
use std::path::{Path, PathBuf};
use std::process::Command;

pub const ENTRY: Entry = Entry {
    verbs: &["drive"],
    answer: |line| match split(line) {
        Some((_, parts)) if parts.len() == 2 => drive(parts[0], parts[1]),
        _ => Err(format!("{line:?} is no case")),
    },
    lists: &[],
};

fn drive(rule: &str, clip: &str) -> Result<String, String> {
    let rule = file(rule, "driver/rule")?;
    let clip = file(clip, "driver/clip")?;
    let code = target("driver/code");
    if code.exists() {
        fs::remove_file(&code).map_err(|error| error.to_string())?;
    }
    let mut valgrind = Command::new("valgrind");
    valgrind.args(["--quiet", "--error-exitcode=9", "--leak-check=full"]);
    valgrind.arg(of("driver/driver").get_program());
    let ended = start(valgrind.args([&rule, &clip, &code]), vec![])?;
    let mut line = match ended.status {
        Some(status) => status.to_string(),
        None => "killed".to_string(),
    };
    if !ended.text.is_empty() {
        line += &format!(" {}", ended.line());
    }
    if fs::read(&code).ok() != expected_code(&rule, &clip) {
        line += ", and the code is another";
    }
    Ok(line)
}

/// The file of a part of the line: that with its name, or one of its bytes.
fn file(part: &str, name: &str) -> Result<PathBuf, String> {
    if part.contains('/') {
        return Ok(Path::new(ROOT).join(part));
    }
    let file = target(name);
    let written = fs::write(&file, bytes_of_words(part)?);
    written.map_err(|error| format!("{}: {error}", file.display()))?;
    Ok(file)
}

/// The code that the driver writes: that of a rule that is accepted, if both files can
/// be read.
fn expected_code(rule: &Path, clip: &Path) -> Option<Vec<u8>> {
    fs::read(clip).ok()?;
    let rule = load(&fs::read(rule).ok()?).ok()?;
    Some(write(&emit(&rule.formula)))
}
