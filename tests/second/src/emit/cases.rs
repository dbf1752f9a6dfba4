//! The list of rules to emit.

use super::case::Emit;
use super::emit;
use crate::formula::{write, Formula, Window};
use crate::instruction;
use crate::limits::{LARGEST_BOUND, MOST_ITEMS, MOST_LOWER, MOST_TIMED};
use crate::load::cases::{edges, samples, Rules};
use crate::load::load;
use crate::random::rule::{
    damaged_rule, edge_rule, formula, good_rule, lowers_of_sum, random_bytes, rule_of_items,
    rule_of_lowers, short_rule, Budget, LEAST_TIMED,
};
use crate::random::{any_bytes, generator, room_around, Random};

/// Bounds: 0, where LATER is left out, and 1; 127 and 128, where a second byte
/// comes; 255, the largest.
pub const BOUNDS: [usize; 5] = [0, 1, 127, 128, LARGEST_BOUND];

/// All windows with both bounds among these, which rise.
pub fn windows(bounds: &[usize]) -> Vec<Window> {
    let mut out = Vec::new();
    for (k, &b) in bounds.iter().enumerate() {
        out.extend(bounds[..=k].iter().map(|&a| Window { a, b }));
    }
    out
}

/// Every operator over two operands, or over the right one alone, and those of
/// the timed kinds with each of these windows.
pub fn operators(l: &Formula, r: &Formula, windows: &[Window]) -> Vec<Formula> {
    let l = || Box::new(l.clone());
    let r = || Box::new(r.clone());
    let mut out = vec![
        Formula::Not(r()),
        Formula::And(l(), r()),
        Formula::Or(l(), r()),
    ];
    for &w in windows {
        out.push(Formula::Until(w, l(), r()));
        out.push(Formula::Release(w, l(), r()));
        out.push(Formula::Eventually(w, r()));
        out.push(Formula::Globally(w, r()));
    }
    out
}

/// Rules to emit, each with a buffer.
pub fn emits(seed: u64) -> Vec<Emit> {
    let mut out = Vec::new();
    every_room(&mut generator(seed, 401), &mut out);
    let mut rules = Vec::new();
    every_bound(&mut rules);
    every_operand(&mut rules);
    limits(&mut generator(seed, 402), &mut rules);
    let mut random = generator(seed, 403);
    rules.extend((0..13_000).map(|_| good_rule(&mut random)));
    let mut random = generator(seed, 404);
    rules.extend((0..3_000).map(|_| long_rule(&mut random)));
    rules.extend(edges(&mut generator(seed, 405)));
    let mut random = generator(seed, 406);
    rules.extend((0..5_000).map(|_| damaged_rule(&mut random)));
    let mut random = generator(seed, 407);
    rules.extend((0..3_000).map(|_| random_bytes(&mut random, 40)));
    // 100,000 bytes, one item of which is too many.
    rules.push([&[0x10], &[0x20; 99_999][..]].concat());
    let mut random = generator(seed, 408);
    out.extend(rules.into_iter().map(|rule| emit_case(&mut random, rule)));
    out
}

/// The length of a rule's code, or none if the rule is refused.
fn code_length(rule: &[u8]) -> Option<usize> {
    let rule = load(rule).ok()?;
    Some(instruction::write(&emit(&rule.formula)).len())
}

/// A rule with a buffer of any bytes, of a length around that of the code. Where
/// the rule is refused, of any length.
fn emit_case(random: &mut Random, rule: Vec<u8>) -> Emit {
    let length = code_length(&rule).unwrap_or_else(|| random.below(40));
    let room = room_around(random, length);
    Emit {
        rule,
        buffer: any_bytes(random, room),
    }
}

/// The samples, some short rules and one of the longest code, each with buffers
/// of every length up to a little more than the code's.
fn every_room(random: &mut Random, out: &mut Vec<Emit>) {
    let mut rules = samples();
    rules.push(write(&longest_formula()));
    rules.extend((0..60).map(|k| short_rule(random, 4 + k % 13)));
    for rule in rules {
        let length = code_length(&rule).unwrap_or(4);
        for room in (0..=length + 3).chain([length + 1_000]) {
            out.push(Emit {
                rule: rule.clone(),
                buffer: any_bytes(random, room),
            });
        }
    }
}

/// Every bound in every timed kind: as the lower one, as the upper one, and as
/// both.
fn every_bound(out: &mut Rules) {
    let mut windows = Vec::new();
    for bound in 0..=LARGEST_BOUND {
        for (a, b) in [(bound, LARGEST_BOUND), (0, bound), (bound, bound)] {
            windows.push(Window { a, b });
        }
    }
    let formulas = operators(&Formula::Flag(0), &Formula::Flag(1), &windows);
    out.extend(formulas.iter().map(write));
}

/// A formula whose code has exactly so many instructions, at least one:
/// `x or false` has five more than x, `not x` one more.
fn formula_of_instructions(count: usize) -> Formula {
    let mut f = Formula::Flag(0);
    for _ in 0..(count - 1) / 5 {
        f = Formula::Or(Box::new(f), Box::new(Formula::False));
    }
    for _ in 0..(count - 1) % 5 {
        f = Formula::Not(Box::new(f));
    }
    f
}

/// Every operator behind so many instructions that the numbers of its operands
/// and of its own bits are around 128, from where on they take two bytes.
fn every_operand(out: &mut Rules) {
    let windows = windows(&BOUNDS);
    for count in 120..=132 {
        let many = formula_of_instructions(count);
        let mut formulas = operators(&many, &Formula::Flag(1), &windows);
        formulas.extend(operators(&Formula::Flag(1), &many, &windows));
        // Those over the right operand alone are left out where that is the flag.
        formulas.retain(|f| f.items() > many.items());
        out.extend(formulas.iter().map(write));
    }
}

/// Rules on either side of each limit.
fn limits(random: &mut Random, out: &mut Rules) {
    for _ in 0..300 {
        out.push(rule_of_items(random, MOST_ITEMS));
        let timed = random.between(LEAST_TIMED, MOST_TIMED);
        let lowers = lowers_of_sum(random, timed, MOST_LOWER);
        out.push(rule_of_lowers(random, &lowers));
        let sum = random.between(0, MOST_LOWER);
        let lowers = lowers_of_sum(random, MOST_TIMED, sum);
        out.push(rule_of_lowers(random, &lowers));
        out.push(edge_rule(random));
    }
}

/// A formula at all limits whose code has more instructions and more bytes than any
/// other of the list. The timed items come first, as the others read more bits for
/// each instruction, and the numbers of bits take two bytes from 128 on.
fn longest_formula() -> Formula {
    let w = Window {
        a: MOST_LOWER / MOST_TIMED,
        b: LARGEST_BOUND,
    };
    let mut f = Formula::False;
    for _ in 1..MOST_TIMED {
        f = Formula::Globally(w, Box::new(f));
    }
    f = Formula::Release(w, Box::new(f), Box::new(Formula::False));
    for _ in 0..(MOST_ITEMS - f.items()) / 2 {
        f = Formula::Or(Box::new(f), Box::new(Formula::False));
    }
    f
}

/// A rule of about as many items as may be, whose code is long.
fn long_rule(random: &mut Random) -> Vec<u8> {
    let items = random.between(MOST_ITEMS - 4, MOST_ITEMS);
    let f = formula(random, items, &mut Budget::of_a_rule());
    write(&lengthened(random, f))
}

/// The formula with three of four items replaced where there are ones with more
/// instructions: values by false, and by or, until by release, eventually by
/// globally.
fn lengthened(random: &mut Random, f: Formula) -> Formula {
    let longer = !random.once_in(4);
    let mut operand = |f: Box<Formula>| Box::new(lengthened(random, *f));
    match f {
        Formula::And(l, r) if longer => Formula::Or(operand(l), operand(r)),
        Formula::Until(w, l, r) if longer => Formula::Release(w, operand(l), operand(r)),
        Formula::Eventually(w, f) if longer => Formula::Globally(w, operand(f)),
        Formula::Not(f) => Formula::Not(operand(f)),
        Formula::And(l, r) => Formula::And(operand(l), operand(r)),
        Formula::Or(l, r) => Formula::Or(operand(l), operand(r)),
        Formula::Until(w, l, r) => Formula::Until(w, operand(l), operand(r)),
        Formula::Release(w, l, r) => Formula::Release(w, operand(l), operand(r)),
        Formula::Eventually(w, f) => Formula::Eventually(w, operand(f)),
        Formula::Globally(w, f) => Formula::Globally(w, operand(f)),
        Formula::True | Formula::False | Formula::Flag(_) if longer => Formula::False,
        value => value,
    }
}

#[cfg(test)]
pub mod tests {
    use super::*;
    use crate::entry::tests::{a_seed_fixes_the_list, number, numbers};
    use crate::instruction::Instruction;

    /// The rules that are not refused, as formulas.
    fn formulas() -> Vec<Formula> {
        let cases = emits(1).into_iter().filter(|case| number(case) == 0);
        cases
            .map(|case| load(&case.rule).unwrap().formula)
            .collect()
    }

    /// Counts each of the ten items of a formula, apart with a lower bound above
    /// 0 and without.
    fn count_items(f: &Formula, seen: &mut [[usize; 10]; 2]) {
        let kind = match f {
            Formula::True => 0,
            Formula::False => 1,
            Formula::Flag(_) => 2,
            Formula::Not(_) => 3,
            Formula::And(_, _) => 4,
            Formula::Or(_, _) => 5,
            Formula::Until(_, _, _) => 6,
            Formula::Release(_, _, _) => 7,
            Formula::Eventually(_, _) => 8,
            Formula::Globally(_, _) => 9,
        };
        let above = f.window().is_some_and(|w| w.a > 0);
        seen[usize::from(above)][kind] += 1;
        for operand in f.operands() {
            count_items(operand, seen);
        }
    }

    /// Asserts that each item comes often.
    pub fn every_item_often(formulas: &[Formula]) {
        let mut seen = [[0; 10]; 2];
        for f in formulas {
            count_items(f, &mut seen);
        }
        let [without, above] = seen;
        assert!(without.iter().all(|&count| count > 2_000), "{without:?}");
        assert!(above[6..].iter().all(|&count| count > 2_000), "{above:?}");
        assert_eq!(above[..6], [0; 6]);
    }

    #[test]
    fn a_seed_fixes_the_rules() {
        a_seed_fixes_the_list::<Emit>(30_000..60_000);
    }

    #[test]
    fn a_formula_of_instructions_has_so_many() {
        for count in 1..=132 {
            let f = formula_of_instructions(count);
            assert_eq!(emit(&f).len(), count);
            assert!(f.items() <= MOST_ITEMS - 2);
        }
    }

    #[test]
    fn rules_are_emitted_and_refused_in_each_way() {
        let seen = numbers(&emits(1));
        assert!(seen[0] > 15_000, "{seen:?}");
        assert!(seen[1] > 0 && seen[16] > 3_000, "{seen:?}");
        assert!(seen[2..=9].iter().all(|&count| count > 300), "{seen:?}");
        assert_eq!(seen[10..16], [0; 6]);
    }

    #[test]
    fn buffers_have_the_lengths_around_the_code() {
        let mut seen = [0; 5];
        for Emit { rule, buffer } in emits(1) {
            let Some(length) = code_length(&rule) else {
                continue;
            };
            seen[0] += usize::from(buffer.is_empty());
            seen[1] += usize::from(buffer.len() + 1 == length);
            seen[2] += usize::from(buffer.len() == length);
            seen[3] += usize::from(buffer.len() == length + 1);
            seen[4] += usize::from(buffer.len() > length + 100);
        }
        assert!(seen.iter().all(|&count| count > 1_000), "{seen:?}");
    }

    #[test]
    fn every_item_is_emitted_often_and_the_limits_are_reached() {
        let formulas = formulas();
        every_item_often(&formulas);
        let most = |size: fn(&Formula) -> usize| formulas.iter().map(size).max().unwrap();
        assert_eq!(most(Formula::items), MOST_ITEMS);
        assert_eq!(most(Formula::timed), MOST_TIMED);
        assert_eq!(most(Formula::lower), MOST_LOWER);
        let most_bytes = |f: &Formula| instruction::write(&emit(f)).len();
        let longest = longest_formula();
        // Two instructions for false, five for globally, for release and for `or false`.
        let ors = (MOST_ITEMS - MOST_TIMED - 2) / 2;
        assert_eq!(emit(&longest).len(), 2 * 2 + 5 * (MOST_TIMED + ors));
        assert_eq!(most(|f| emit(f).len()), emit(&longest).len());
        assert_eq!(
            formulas.iter().map(most_bytes).max(),
            Some(most_bytes(&longest))
        );
        assert_eq!((emit(&longest).len(), most_bytes(&longest)), (199, 661));
    }

    #[test]
    fn numbers_of_two_bytes_stand_everywhere_in_emitted_code() {
        // NAND i and j, REACH i, j and w, LATER i and d, each above 127 and not.
        let mut seen = [[0; 7]; 2];
        for f in formulas() {
            for instruction in emit(&f) {
                let numbers = match instruction {
                    Instruction::One | Instruction::Flag { .. } => vec![],
                    Instruction::Nand { i, j } => vec![(0, i), (1, j)],
                    Instruction::Reach { i, j, w } => vec![(2, i), (3, j), (4, w)],
                    Instruction::Later { i, d } => vec![(5, i), (6, d)],
                };
                for (place, number) in numbers {
                    seen[usize::from(number > 127)][place] += 1;
                }
            }
        }
        assert!(seen.iter().flatten().all(|&count| count > 300), "{seen:?}");
    }
}
