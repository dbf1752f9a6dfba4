//! The table of the search: the library beside the second program's search and the
//! search in C, on the same rules. The answers are compared whole.

use crate::answer::{of_c, of_library, of_second, Answer};
use crate::c_search;
use crate::rules::{rules, Expected, Rule};
use crate::turns::{by_turns, Rounds};
use crate::verdict::Verdict;
use archive::header::{CODE_LENGTH, MOST_RECORDS, TABLE_LENGTH, WITNESS_LENGTH};
use archive::word;
use second::limits::{BYTES, LARGEST_FLAG};
use second::search::search;

/// All flags. A state is tried with as many frame bytes as there are. The library
/// passes over those that differ from a smaller one only in flags that the rule does
/// not name; they count.
const FLAGS: usize = LARGEST_FLAG + 1;
/// With all eight flags named the library takes at most so many times as long as the
/// second program.
const AT_MOST: f64 = 1.3;
/// With fewer it is clearly ahead: it takes at most this share of the time.
const AHEAD: f64 = 0.5;
/// A trial takes at most so many times as long with 60,000 states as with 8,000.
const GROWTH: f64 = 1.3;
/// A table of the most records is filled in at most so many seconds.
const FILLED: f64 = 30.0;
/// Long searches are done twice, short ones more often.
const ROUNDS: Rounds = Rounds {
    least: 2,
    most: 20,
    seconds: 1.0,
};
/// The longest, which are of this kind, are done once.
const LONGEST: &str = "spread";
const ONCE: Rounds = Rounds {
    least: 1,
    most: 1,
    seconds: 0.0,
};

/// What the search for one rule took.
struct Row {
    rule: Rule,
    answer: Answer,
    agree: bool,
    /// The pairs of a state and a byte up to the end of the search.
    trials: u64,
    /// The library, the second program, C.
    seconds: [f64; 3],
}

impl Row {
    /// Nanoseconds a trial.
    fn trial(&self, program: usize) -> f64 {
        1e9 * self.seconds[program] / self.trials as f64
    }
}

/// Times the three programs on one rule. All three get a table or room for the most
/// records; the table is full of other bytes at first.
fn timed(rule: Rule) -> Row {
    let bytes = &rule.bytes[..];
    let mut code = [0; CODE_LENGTH];
    let length = word::length(archive::emit(bytes, &mut code));
    let mut tables = [vec![0xff; TABLE_LENGTH], vec![0xff; TABLE_LENGTH]];
    let [library_table, second_table] = &mut tables;
    let mut witnesses = [[0; WITNESS_LENGTH]; 3];
    let [library_witness, second_witness, c_witness] = &mut witnesses;
    let mut trials = 0;
    let rounds = match rule.kind {
        LONGEST => &ONCE,
        _ => &ROUNDS,
    };
    let by_turns = by_turns(
        rounds,
        [
            &mut || {
                let word = archive::search(bytes, library_table, library_witness);
                of_library(word, library_witness)
            },
            &mut || {
                let found = search(bytes, second_table, second_witness);
                of_second(found, second_witness)
            },
            &mut || {
                let found = c_search::search(&code[..length], c_witness);
                trials = found.trials;
                of_c(&found, c_witness)
            },
        ],
    );
    Row {
        rule,
        answer: by_turns.answer,
        agree: by_turns.agree,
        trials,
        seconds: by_turns.seconds,
    }
}

/// The head of a table of rows.
const HEAD: &str = concat!(
    "                                          seconds                  nanoseconds a trial   library over\n",
    "flags kind      verdict length states   library   second       C  library second      C    second      C  answers"
);

/// Times a rule and prints its row.
fn row(rule: Rule, verdict: &mut Verdict) -> Row {
    let row = timed(rule);
    let Rule {
        flags,
        kind,
        expected,
        states,
        ..
    } = row.rule;
    let met = expected == Expected::Met;
    let right = row.answer.is_met() == met && row.answer.states() == states;
    let answers = verdict.answers(row.agree && right);
    let [library, second, c] = row.seconds;
    let ratio = library / second;
    let limit = if flags == FLAGS { AT_MOST } else { AHEAD };
    let mut missed = vec![verdict.target(ratio, limit)];
    if expected == Expected::Full {
        missed.push(verdict.target(library, FILLED));
    }
    println!(
        "{flags:5} {kind:9} {:7} {:6} {:6} {library:9.4} {second:8.4} {c:7.4} \
         {:8.1} {:6.1} {:6.1} {ratio:9.3} {:6.2}  {answers}{}",
        row.answer.word(),
        row.answer.length(),
        row.answer.states(),
        row.trial(0),
        row.trial(1),
        row.trial(2),
        library / c,
        missed.concat(),
    );
    row
}

/// Whether two rows are of one family.
fn same_family(first: &Row, second: &Row) -> bool {
    let family = |row: &Row| (row.rule.flags, row.rule.kind, row.rule.expected);
    family(first) == family(second)
}

/// Prints the growth of each family that has all its rows.
fn print_growth(rows: &[Row], verdict: &mut Verdict) {
    println!(
        "growth of the search: nanoseconds a trial with about 60,000 states over those with about 8,000"
    );
    println!("target: at most {GROWTH} for the library");
    println!("flags kind      verdict   library   second       C");
    for family in rows.chunk_by(same_family) {
        if let [_, middle, large] = family {
            let growth = |program| large.trial(program) / middle.trial(program);
            println!(
                "{:5} {:9} {:7} {:9.2} {:8.2} {:7.2}{}",
                large.rule.flags,
                large.rule.kind,
                large.answer.word(),
                growth(0),
                growth(1),
                growth(2),
                verdict.target(growth(0), GROWTH)
            );
        }
    }
}

/// Prints all tables of the search, for the rules with at most so many states.
pub fn print(most: usize) -> Verdict {
    let mut verdict = Verdict::default();
    let few = rules().into_iter().filter(|rule| rule.states <= most);
    let (full, families): (Vec<_>, Vec<_>) = few.partition(|rule| rule.expected == Expected::Full);
    println!(
        "search: best of {} to {} rounds; a trial is a state with one of {BYTES} bytes in front",
        ROUNDS.least, ROUNDS.most
    );
    println!(
        "the second program keeps states in a HashSet; C packs them and has its own hash table; \
         both try every byte"
    );
    println!(
        "targets: library over second at most {AT_MOST} with all eight flags named, \
         at most {AHEAD} with fewer"
    );
    println!("{HEAD}");
    let rows: Vec<Row> = families
        .into_iter()
        .map(|rule| row(rule, &mut verdict))
        .collect();
    println!();
    print_growth(&rows, &mut verdict);
    println!();
    println!(
        "all {MOST_RECORDS} records filled; targets: at most {FILLED} seconds for the library, \
         and the ratios as above"
    );
    println!(
        "{LONGEST}: of each 32 delay bits only the highest differ, \
         which is hard for simple hashes; one round"
    );
    println!("{HEAD}");
    for rule in full {
        row(rule, &mut verdict);
    }
    verdict
}
