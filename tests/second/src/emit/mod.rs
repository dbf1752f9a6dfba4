//! Emitting: a formula as sequencer code, by document 01's table.

pub mod case;
pub mod cases;

use crate::formula::{Formula, Window};
use crate::instruction::{write, Instruction};
use crate::load::load;
use crate::refusal::Refusal;

/// The code of a formula. Limits are not asked about.
pub fn emit(f: &Formula) -> Vec<Instruction> {
    let mut code = Vec::new();
    append(f, &mut code);
    code
}

/// Emits a rule: the rule, then 16. It writes the code's bytes from the buffer's
/// first byte on and gives their number, and writes nothing if it refuses.
pub fn emit_rule(rule: &[u8], buffer: &mut [u8]) -> Result<usize, Refusal> {
    let bytes = write(&emit(&load(rule)?.formula));
    if buffer.len() < bytes.len() {
        return Err(Refusal {
            number: 16,
            place: 0,
        });
    }
    buffer[..bytes.len()].copy_from_slice(&bytes);
    Ok(bytes.len())
}

/// Appends an instruction and gives its number.
fn push(code: &mut Vec<Instruction>, instruction: Instruction) -> usize {
    code.push(instruction);
    code.len() - 1
}

fn nand(code: &mut Vec<Instruction>, i: usize, j: usize) -> usize {
    push(code, Instruction::Nand { i, j })
}

/// N: NAND of a bit with itself.
fn n(code: &mut Vec<Instruction>, i: usize) -> usize {
    nand(code, i, i)
}

fn one(code: &mut Vec<Instruction>) -> usize {
    push(code, Instruction::One)
}

/// REACH b−a and LATER a, which is left out when a = 0.
fn timed(code: &mut Vec<Instruction>, window: Window, i: usize, j: usize) -> usize {
    let Window { a, b } = window;
    let reach = push(code, Instruction::Reach { i, j, w: b - a });
    if a == 0 {
        return reach;
    }
    push(code, Instruction::Later { i: reach, d: a })
}

/// Appends the code of a formula and gives the number of its last instruction.
fn append(f: &Formula, code: &mut Vec<Instruction>) -> usize {
    match f {
        Formula::True => one(code),
        Formula::False => {
            let i = one(code);
            n(code, i)
        }
        Formula::Flag(k) => push(code, Instruction::Flag { k: *k }),
        Formula::Not(f) => {
            let i = append(f, code);
            n(code, i)
        }
        Formula::And(l, r) => {
            let (l, r) = (append(l, code), append(r, code));
            let i = nand(code, l, r);
            n(code, i)
        }
        Formula::Or(l, r) => {
            let (l, r) = (append(l, code), append(r, code));
            let (l, r) = (n(code, l), n(code, r));
            nand(code, l, r)
        }
        Formula::Until(w, l, r) => {
            let (l, r) = (append(l, code), append(r, code));
            timed(code, *w, l, r)
        }
        Formula::Release(w, l, r) => {
            let (l, r) = (append(l, code), append(r, code));
            let (l, r) = (n(code, l), n(code, r));
            let i = timed(code, *w, l, r);
            n(code, i)
        }
        Formula::Eventually(w, f) => {
            let r = append(f, code);
            let l = one(code);
            timed(code, *w, l, r)
        }
        Formula::Globally(w, f) => {
            let r = append(f, code);
            let l = one(code);
            let r = n(code, r);
            let i = timed(code, *w, l, r);
            n(code, i)
        }
    }
}

#[cfg(test)]
mod tests {
    use super::*;
    use crate::load_code::load_code;
    use crate::random::rule::good_formula;
    use crate::random::Random;
    use crate::text::bytes;

    /// Asserts what code the rule of a text has.
    fn emits(rule: &str, expected: &str) {
        let f = load(&bytes(rule)).unwrap().formula;
        assert_eq!(write(&emit(&f)), bytes(expected), "{rule}");
    }

    #[test]
    fn the_sample_of_01_and_the_rule_of_its_run() {
        emits("12 00 32 02 04", "02 00 01 04 01 00 02 05 02 02");
        // The code of the rule of its sample of a run.
        emits("12 00 12 01 30 01 03", "02 00 02 01 04 00 01 02 05 02 01");
    }

    #[test]
    fn each_row_of_the_table() {
        emits("10", "01");
        emits("12 07", "02 07");
        emits("11", "01 03 00 00");
        emits("12 03 20", "02 03 03 00 00");
        emits("12 00 12 01 21", "02 00 02 01 03 00 01 03 02 02");
        emits("12 00 12 01 22", "02 00 02 01 03 00 00 03 01 01 03 02 03");
        let two = "02 00 02 01";
        emits("12 00 12 01 30 00 03", &format!("{two} 04 00 01 03"));
        emits(
            "12 00 12 01 30 02 05",
            &format!("{two} 04 00 01 03 05 02 02"),
        );
        let two = "02 00 02 01 03 00 00 03 01 01";
        emits(
            "12 00 12 01 31 00 03",
            &format!("{two} 04 02 03 03 03 04 04"),
        );
        emits(
            "12 00 12 01 31 02 05",
            &format!("{two} 04 02 03 03 05 04 02 03 05 05"),
        );
        emits("12 00 32 00 04", "02 00 01 04 01 00 04");
        emits("12 00 32 02 04", "02 00 01 04 01 00 02 05 02 02");
        let one = "02 00 01 03 00 00";
        emits("12 00 33 00 04", &format!("{one} 04 01 02 04 03 03 03"));
        emits(
            "12 00 33 02 04",
            &format!("{one} 04 01 02 02 05 03 02 03 04 04"),
        );
    }

    #[test]
    fn an_emit_refuses_the_rule_then_16() {
        let answer = |rule: &str, room: usize| {
            let mut buffer = vec![9; room];
            let result = emit_rule(&bytes(rule), &mut buffer);
            (result, buffer)
        };
        let refusal = |number, place| Err(Refusal { number, place });
        assert_eq!(answer("", 0), (refusal(1, 0), vec![]));
        assert_eq!(answer("10 10", 0), (refusal(9, 2), vec![]));
        assert_eq!(answer("12 08", 2), (refusal(5, 0), vec![9; 2]));
        assert_eq!(answer("11", 0), (refusal(16, 0), vec![]));
        assert_eq!(answer("11", 3), (refusal(16, 0), vec![9; 3]));
        assert_eq!(answer("11", 4), (Ok(4), vec![1, 3, 0, 0]));
        assert_eq!(answer("11", 6), (Ok(4), vec![1, 3, 0, 0, 9, 9]));
    }

    #[test]
    fn emitted_code_of_an_accepted_rule_is_accepted() {
        let mut random = Random::new(1);
        for _ in 0..5_000 {
            let code = emit(&good_formula(&mut random));
            assert_eq!(load_code(&write(&code)), Ok(code));
        }
    }
}
