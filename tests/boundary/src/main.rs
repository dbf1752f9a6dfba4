//! The program: asks the library, through its archive and its programs, and compares
//! it with the second program.

mod call;
mod compare;
mod drive;
mod emit;
mod entry;
mod lent;
mod load;
mod load_code;
mod makers;
mod program;
mod run;
mod search;
mod standing;
mod step;
mod verdicts;
mod word;

use std::io::{self, BufRead, BufWriter, Write};
use std::num::NonZeroUsize;
use std::process::ExitCode;
use std::str::FromStr;

const USE: &str = "use:
  boundary compare SEED          compare all cases of a seed
  boundary compare SEED SHARE    compare one in SHARE, for valgrind
  boundary answer                read cases, write a line for each: the library's answer";

fn main() -> ExitCode {
    let arguments: Vec<String> = std::env::args().skip(1).collect();
    let words: Vec<&str> = arguments.iter().map(String::as_str).collect();
    let result = match words[..] {
        ["compare", seed] => compare(seed, "1"),
        ["compare", seed, share] => compare(seed, share),
        ["answer"] => answer(),
        _ => Err(USE.to_string()),
    };
    match result {
        Ok(()) => ExitCode::SUCCESS,
        Err(words) => {
            eprintln!("{words}");
            ExitCode::FAILURE
        }
    }
}

fn said(error: io::Error) -> String {
    format!("boundary: {error}")
}

/// The number that a word of the command says.
fn number<Number: FromStr>(word: &str) -> Result<Number, String> {
    word.parse()
        .map_err(|_| format!("boundary: {word:?} is not such a number"))
}

/// Compares the cases of a seed, or one in so many of them.
fn compare(seed: &str, share: &str) -> Result<(), String> {
    let share: NonZeroUsize = number(share)?;
    if compare::compare(number(seed)?, share.get()) {
        return Ok(());
    }
    Err("boundary: the comparison has failed".to_string())
}

/// Writes the library's answer to each case.
fn answer() -> Result<(), String> {
    let mut out = BufWriter::new(io::stdout().lock());
    for (k, line) in io::stdin().lock().lines().enumerate() {
        let line = line.map_err(said)?;
        let Some((verb, _)) = second::entry::split(&line) else {
            continue;
        };
        let answer = entry::of_verb(verb).and_then(|entry| (entry.answer)(&line));
        let answer = answer.map_err(|words| format!("boundary: line {}: {words}", k + 1))?;
        writeln!(out, "{answer}").map_err(said)?;
    }
    out.flush().map_err(said)
}
