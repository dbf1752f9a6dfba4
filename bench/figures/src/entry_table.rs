//! The table of load and emit: the library beside the second program, on rules of as
//! many items as may be.

use crate::turns::{by_turns, Rounds};
use crate::verdict::Verdict;
use archive::header::{CODE_LENGTH, MOST_ITEMS, MOST_TIMED};
use archive::word;
use second::emit::emit_rule;
use second::load::load;
use second::random::rule::rule_of_items;
use second::random::Random;
use std::hint::black_box;

/// In a round each program is called so often.
const CALLS: usize = 2_000;
const ROUNDS: Rounds = Rounds {
    least: 30,
    most: 30,
    seconds: 0.0,
};
/// The random rule is that of this seed.
const SEED: u64 = 1;

/// So many windows: as many as may be, each with a flag and, save for one, an and.
const WINDOWS: usize = if 3 * MOST_TIMED <= MOST_ITEMS + 1 {
    MOST_TIMED
} else {
    (MOST_ITEMS + 1) / 3
};

/// A rule with so many windows: flags with a window each, joined by and; the other
/// items are not.
fn windows() -> Vec<u8> {
    let mut rule = Vec::new();
    for k in 0..WINDOWS as u8 {
        let timed = if k % 2 == 0 { 0x32 } else { 0x33 };
        rule.extend([0x12, k % 8, timed, k, 2 * k + 3]);
    }
    rule.extend([0x21; WINDOWS - 1]);
    rule.extend([0x20; MOST_ITEMS + 1 - 3 * WINDOWS]);
    rule
}

/// A rule without windows: a flag, and more, each behind a not and joined by or.
fn flags() -> Vec<u8> {
    let mut rule = vec![0x12, 0];
    for k in 1..=(MOST_ITEMS as u8 - 1) / 3 {
        rule.extend([0x12, k % 8, 0x20, 0x22]);
    }
    rule
}

/// Calls a function so often and gives the last answer.
fn often<T>(mut call: impl FnMut() -> T) -> T {
    for _ in 1..CALLS {
        black_box(call());
    }
    call()
}

/// Times one function of both programs and prints its row.
fn row<T: PartialEq>(
    entry: &str,
    name: &str,
    library: &mut dyn FnMut() -> T,
    second: &mut dyn FnMut() -> T,
    verdict: &mut Verdict,
) {
    let timed = by_turns(&ROUNDS, [library, second]);
    let [library, second] = timed.seconds.map(|seconds| 1e9 * seconds / CALLS as f64);
    println!(
        "{entry:5} {name:8} {library:9.0} {second:8.0} {:6.2}  {}",
        library / second,
        verdict.answers(timed.agree)
    );
}

/// What load answers: the items and the horizon.
fn loaded(word: u64) -> (usize, usize) {
    assert_eq!(word::refusal(word), 0, "the rule is accepted");
    (word::items(word), word::horizon(word))
}

/// Prints the table.
pub fn print() -> Verdict {
    let mut verdict = Verdict::default();
    println!(
        "load and emit of rules of {MOST_ITEMS} items: nanoseconds a call, best of {} rounds of {CALLS} calls",
        ROUNDS.least
    );
    println!("entry rule       library   second  ratio  answers");
    let random = rule_of_items(&mut Random::new(SEED), MOST_ITEMS);
    for (name, rule) in [
        ("windows", windows()),
        ("flags", flags()),
        ("random", random),
    ] {
        row(
            "load",
            name,
            &mut || often(|| loaded(archive::load(black_box(&rule)))),
            &mut || {
                often(|| {
                    let rule = load(black_box(&rule)).expect("the rule is accepted");
                    (rule.items, rule.horizon)
                })
            },
            &mut verdict,
        );
        let mut by_library = [0; CODE_LENGTH];
        let mut by_second = [0; CODE_LENGTH];
        row(
            "emit",
            name,
            &mut || {
                let word = often(|| archive::emit(black_box(&rule), &mut by_library));
                by_library[..word::length(word)].to_vec()
            },
            &mut || {
                let emitted = often(|| emit_rule(black_box(&rule), &mut by_second));
                by_second[..emitted.expect("the rule is accepted")].to_vec()
            },
            &mut verdict,
        );
        assert_eq!(loaded(archive::load(&rule)).0, MOST_ITEMS);
    }
    verdict
}
