//! Prints one part of the benchmark.
//!
//! - `figures search [STATES]`: the search, for rules of at most so many states.
//! - `figures entries`: load and emit.
//! - `figures solver DIRECTORY`: the search beside z3, whose scripts go to the
//!   directory.
//!
//! The status is 0 if all answers agree and no target is missed, 1 if an answer
//! differs, 2 if only a target is missed, and 3 if the part cannot be printed or
//! nothing is compared; a panic gives 101.

mod answer;
mod c_search;
mod entry_table;
mod rules;
mod search_table;
mod shapes;
mod smt;
mod solver_table;
mod turns;
mod verdict;
mod z3;

use std::env;
use std::path::Path;
use std::process::ExitCode;

fn main() -> ExitCode {
    let arguments: Vec<String> = env::args().skip(1).collect();
    let words: Vec<&str> = arguments.iter().map(String::as_str).collect();
    let printed = match words[..] {
        ["search"] => Ok(search_table::print(usize::MAX)),
        ["search", states] => match states.parse() {
            Ok(states) => Ok(search_table::print(states)),
            Err(_) => Err(format!("{states:?} is not a number of states")),
        },
        ["entries"] => Ok(entry_table::print()),
        ["solver", directory] => {
            solver_table::print(Path::new(directory)).map_err(|error| error.to_string())
        }
        _ => Err("search [STATES], entries, or solver DIRECTORY".into()),
    };
    match printed {
        Ok(verdict) => verdict.end(words[0]),
        Err(error) => {
            eprintln!("figures: {error}");
            ExitCode::from(3)
        }
    }
}
