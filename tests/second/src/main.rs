//! The program: writes the cases of a seed, answers lines of cases, and packs them
//! for the program `runs`.

use second::entry::{of_verb, split, Entry};
use std::io::{self, BufRead, BufWriter, Write};
use std::process::ExitCode;

const USE: &str = "use:
  second cases VERB SEED   write the cases of a seed for an entry, a line each
  second answer            read cases, write a line for each: its answer
  second pack              read cases, write the stream that `runs` reads";

fn main() -> ExitCode {
    let arguments: Vec<String> = std::env::args().skip(1).collect();
    let words: Vec<&str> = arguments.iter().map(String::as_str).collect();
    let result = match words[..] {
        ["cases", verb, seed] => cases(verb, seed),
        ["answer"] => each_case(|entry, line| Ok(((entry.answer)(line)? + "\n").into_bytes())),
        ["pack"] => each_case(|entry, line| (entry.pack)(line)),
        _ => Err(USE.to_string()),
    };
    match result {
        Ok(()) => ExitCode::SUCCESS,
        Err(words) => {
            eprintln!("{words}");
            ExitCode::FAILURE
        }
    }
}

fn said(error: io::Error) -> String {
    format!("second: {error}")
}

/// Writes all cases of a seed for the entry with a verb.
fn cases(verb: &str, seed: &str) -> Result<(), String> {
    let number = seed.parse();
    let number = number.map_err(|_| format!("second: {seed:?} is not a seed"))?;
    let mut out = BufWriter::new(io::stdout().lock());
    for line in (of_verb(verb)?.lines)(number) {
        writeln!(out, "{line}").map_err(said)?;
    }
    out.flush().map_err(said)
}

/// Reads lines and writes the bytes for each case.
fn each_case(of_case: fn(&Entry, &str) -> Result<Vec<u8>, String>) -> Result<(), String> {
    let mut out = BufWriter::new(io::stdout().lock());
    for (k, line) in io::stdin().lock().lines().enumerate() {
        let line = line.map_err(said)?;
        let Some((verb, _)) = split(&line) else {
            continue;
        };
        let bytes = of_verb(verb).and_then(|entry| of_case(entry, &line));
        let bytes = bytes.map_err(|words| format!("second: line {}: {words}", k + 1))?;
        out.write_all(&bytes).map_err(said)?;
    }
    out.flush().map_err(said)
}
