//! The table of the solver: the library's search and z3 decide the same question on the
//! same random rules.

use crate::answer::{of_library, Answer, NO_ROOM};
use crate::shapes::{samples, Sample};
use crate::smt::script;
use crate::turns::{by_turns, Rounds, Timed};
use crate::verdict::Verdict;
use crate::z3::{self, Said, LIMIT, MEMORY};
use archive::header::{TABLE_LENGTH, WITNESS_LENGTH};
use second::formula::write;
use std::fs;
use std::io;
use std::path::Path;

/// The library's search is done so often; z3 once, as it takes long.
const ROUNDS: Rounds = Rounds {
    least: 1,
    most: 5,
    seconds: 0.2,
};

/// What became of the rules.
#[derive(Default)]
struct Counts {
    agree: usize,
    differ: usize,
    no_room: usize,
    timed_out: usize,
    out_of_memory: usize,
    unknown: usize,
}

/// The search of the library.
fn searched(rule: &[u8], table: &mut [u8]) -> Timed<Answer, 1> {
    let mut witness = [0; WITNESS_LENGTH];
    by_turns(
        &ROUNDS,
        [&mut || {
            let word = archive::search(rule, table, &mut witness);
            of_library(word, &witness)
        }],
    )
}

impl Counts {
    /// Counts a rule and gives the word for it. Where one of the two gives no answer
    /// there is nothing to agree on, except that the rounds of the library agree. It
    /// refuses only for want of room.
    fn count(&mut self, searched: &Timed<Answer, 1>, said: Said) -> &'static str {
        let (count, word) = match (&searched.answer, said) {
            _ if !searched.agree => (&mut self.differ, "DIFFERENT"),
            (Answer::Refused(NO_ROOM), _) => (&mut self.no_room, "-"),
            (Answer::Refused(_), _) => (&mut self.differ, "DIFFERENT"),
            (_, Said::TimedOut) => (&mut self.timed_out, "-"),
            (_, Said::OutOfMemory) => (&mut self.out_of_memory, "-"),
            (_, Said::Unknown) => (&mut self.unknown, "-"),
            (Answer::Met { .. }, Said::Satisfiable)
            | (Answer::None { .. }, Said::Unsatisfiable) => (&mut self.agree, "agree"),
            _ => (&mut self.differ, "DIFFERENT"),
        };
        *count += 1;
        word
    }
}

/// The one in the middle, or the upper one of two.
fn median(figures: &mut [f64]) -> f64 {
    figures.sort_by(f64::total_cmp);
    figures.get(figures.len() / 2).copied().unwrap_or(f64::NAN)
}

/// Prints the table, and keeps each script in the directory.
pub fn print(directory: &Path) -> io::Result<Verdict> {
    let mut verdict = Verdict::default();
    let Some(version) = z3::version() else {
        return Err(io::Error::other("z3 is not installed"));
    };
    fs::create_dir_all(directory)?;
    let (_, floor) = z3::decide("(check-sat)\n", &directory.join("floor.smt2"))?;
    println!(
        "{version}, from its start to its end, at most {LIMIT} seconds and {MEMORY} megabytes a rule; \
         on an empty script it takes {:.1} milliseconds",
        1e3 * floor
    );
    println!(
        "rule shape     windows items  library   states milliseconds   z3       milliseconds  verdicts"
    );
    let mut table = vec![0; TABLE_LENGTH];
    let mut counts = Counts::default();
    let (mut ours, mut theirs) = (Vec::new(), Vec::new());
    for (number, sample) in samples().iter().enumerate() {
        let Sample {
            shape,
            bound,
            formula,
        } = sample;
        let rule = write(formula);
        let searched = searched(&rule, &mut table);
        let (answer, library) = (&searched.answer, searched.seconds[0]);
        let text: Vec<String> = rule.iter().map(|byte| format!("{byte:02x}")).collect();
        let script = script(formula, &format!("the rule {}", text.join(" ")));
        let file = directory.join(format!("{number:02}.smt2"));
        let (said, z3) = z3::decide(&script, &file)?;
        let word = counts.count(&searched, said);
        println!(
            "{number:4} {shape:9} {bound:7} {:5}  {:9} {:6} {:12.3}   {:8} {:12.1}  {word}",
            formula.items(),
            answer.word(),
            answer.states(),
            1e3 * library,
            said.word(),
            1e3 * z3,
        );
        verdict.answers(word != "DIFFERENT");
        ours.push(1e3 * library);
        theirs.push(1e3 * z3);
    }
    println!(
        "milliseconds in all: library {:.1}, z3 {:.1}; median: library {:.3}, z3 {:.1}",
        ours.iter().sum::<f64>(),
        theirs.iter().sum::<f64>(),
        median(&mut ours),
        median(&mut theirs)
    );
    println!(
        "{} agree, {} differ; without an answer: {} times the library had no room, \
         {} times z3 timed out, {} times it ran out of memory, {} times it did not know",
        counts.agree,
        counts.differ,
        counts.no_room,
        counts.timed_out,
        counts.out_of_memory,
        counts.unknown
    );
    Ok(verdict)
}
