//! Random rules: good ones, ones near each limit, damaged ones, and bytes that are no
//! rule at all.

use super::Random;
use crate::formula::{write, Formula, Window};
use crate::limits::{LARGEST_BOUND, LARGEST_FLAG, MOST_ITEMS, MOST_LOWER, MOST_TIMED};

/// All code bytes of rules.
pub const CODES: [u8; 10] = [0x10, 0x11, 0x12, 0x20, 0x21, 0x22, 0x30, 0x31, 0x32, 0x33];

/// What a random formula may still use up.
pub struct Budget {
    /// Timed items.
    pub timed: usize,
    /// Sum of lower bounds.
    pub lower: usize,
    /// Largest bound.
    pub bound: usize,
    /// Largest flag.
    pub flag: usize,
}

impl Budget {
    /// What a rule may use by document 01.
    pub fn of_a_rule() -> Budget {
        Budget {
            timed: MOST_TIMED,
            lower: MOST_LOWER,
            bound: LARGEST_BOUND,
            flag: LARGEST_FLAG,
        }
    }
}

/// A formula without operands.
fn leaf(random: &mut Random, flag: usize) -> Formula {
    match random.below(8) {
        0 => Formula::True,
        1 => Formula::False,
        _ => Formula::Flag(random.between(0, flag)),
    }
}

/// A bound: small, or near the places where its form or its standing changes,
/// or any.
fn bound(random: &mut Random, largest: usize) -> usize {
    let chosen = match random.below(3) {
        0 => random.below(5),
        1 => random.pick(&[
            0,
            1,
            2,
            126,
            127,
            128,
            129,
            LARGEST_BOUND - 1,
            LARGEST_BOUND,
        ]),
        _ => random.between(0, largest),
    };
    chosen.min(largest)
}

/// A window within the budget; takes its lower bound off.
fn window(random: &mut Random, budget: &mut Budget) -> Window {
    let x = bound(random, budget.bound);
    let y = bound(random, budget.bound);
    // Half of the windows start early, so that the sum of lower bounds lasts.
    let a = if random.once_in(2) {
        x.min(y).min(3)
    } else {
        x.min(y)
    };
    let a = a.min(budget.lower);
    budget.lower -= a;
    budget.timed -= 1;
    Window { a, b: x.max(y) }
}

/// A timed formula of one operand.
fn timed_of_one(random: &mut Random, w: Window, f: Formula) -> Formula {
    if random.once_in(2) {
        Formula::Eventually(w, Box::new(f))
    } else {
        Formula::Globally(w, Box::new(f))
    }
}

/// A timed formula of two operands.
fn timed_of_two(random: &mut Random, w: Window, l: Formula, r: Formula) -> Formula {
    if random.once_in(2) {
        Formula::Until(w, Box::new(l), Box::new(r))
    } else {
        Formula::Release(w, Box::new(l), Box::new(r))
    }
}

/// A random formula of exactly so many items, at least one, within the budget.
pub fn formula(random: &mut Random, items: usize, budget: &mut Budget) -> Formula {
    if items == 1 {
        return leaf(random, budget.flag);
    }
    let timed = budget.timed > 0 && random.once_in(2);
    let w = timed.then(|| window(random, budget));
    if items == 2 || random.once_in(3) {
        let f = formula(random, items - 1, budget);
        return match w {
            Some(w) => timed_of_one(random, w, f),
            None => Formula::Not(Box::new(f)),
        };
    }
    let left = random.between(1, items - 2);
    let l = formula(random, left, budget);
    let r = formula(random, items - 1 - left, budget);
    match w {
        Some(w) => timed_of_two(random, w, l, r),
        None if random.once_in(2) => Formula::And(Box::new(l), Box::new(r)),
        None => Formula::Or(Box::new(l), Box::new(r)),
    }
}

/// A random formula within all limits, most often a small one.
pub fn good_formula(random: &mut Random) -> Formula {
    let items = match random.below(4) {
        0 => random.between(1, 4),
        1 => random.between(1, 12),
        2 => random.between(1, 30),
        _ => random.between(1, MOST_ITEMS),
    };
    formula(random, items, &mut Budget::of_a_rule())
}

/// A random formula to search a clip for, within the budget, of about so many
/// items, at most twice as many and two: any; one that no clip satisfies, so that
/// all its states are reached; or one that wants several frames.
pub fn searched_formula(random: &mut Random, items: usize, budget: &mut Budget) -> Formula {
    let (l, r) = match random.below(8) {
        0..=2 => return formula(random, items, budget),
        3 => (formula(random, items, budget), Formula::False),
        4 => {
            budget.timed /= 2;
            budget.lower /= 2;
            let f = formula(random, items, budget);
            (f.clone(), Formula::Not(Box::new(f)))
        }
        _ if budget.timed == 0 => return formula(random, items, budget),
        _ => {
            let k = random.between(0, budget.lower.min(budget.bound));
            budget.timed -= 1;
            budget.lower -= k;
            // Over a flag there are more states, as it may be in each frame or not.
            let frame = match random.below(3) {
                0 => Formula::True,
                _ => leaf(random, budget.flag),
            };
            let later = Formula::Eventually(Window { a: k, b: k }, Box::new(frame));
            (later, formula(random, items, budget))
        }
    };
    let (l, r) = if random.once_in(2) { (l, r) } else { (r, l) };
    Formula::And(Box::new(l), Box::new(r))
}

/// A random good rule.
pub fn good_rule(random: &mut Random) -> Vec<u8> {
    write(&good_formula(random))
}

/// A random good rule of at most so many bytes, at least one.
pub fn short_rule(random: &mut Random, most: usize) -> Vec<u8> {
    loop {
        // No item takes less than one byte.
        let items = random.between(1, most);
        let rule = write(&formula(random, items, &mut Budget::of_a_rule()));
        if rule.len() <= most {
            return rule;
        }
    }
}

/// A random rule of exactly so many items, within the other limits.
pub fn rule_of_items(random: &mut Random, items: usize) -> Vec<u8> {
    write(&formula(random, items, &mut Budget::of_a_rule()))
}

/// A random rule whose timed items have exactly these lower bounds, in some
/// shape. It has at most twice as many items, and one.
pub fn rule_of_lowers(random: &mut Random, lowers: &[usize]) -> Vec<u8> {
    write(&formula_of_lowers(random, lowers))
}

fn formula_of_lowers(random: &mut Random, lowers: &[usize]) -> Formula {
    let Some((&a, others)) = lowers.split_first() else {
        return leaf(random, LARGEST_FLAG);
    };
    let b = if random.once_in(2) {
        a
    } else {
        random.between(a, LARGEST_BOUND.max(a))
    };
    let w = Window { a, b };
    if random.once_in(2) {
        let f = formula_of_lowers(random, others);
        timed_of_one(random, w, f)
    } else {
        let (left, right) = others.split_at(random.between(0, others.len()));
        let l = formula_of_lowers(random, left);
        let r = formula_of_lowers(random, right);
        timed_of_two(random, w, l, r)
    }
}

/// So many timed items at least have lower bounds of the largest sum, and a little more.
pub const LEAST_TIMED: usize = (MOST_LOWER + 4).div_ceil(LARGEST_BOUND);

/// So many lower bounds, none above the largest bound, that add up to `sum`.
pub fn lowers_of_sum(random: &mut Random, count: usize, sum: usize) -> Vec<usize> {
    assert!(sum <= count * LARGEST_BOUND, "{count} bounds of sum {sum}");
    let mut lowers = vec![0; count];
    let mut left = sum;
    while left > 0 {
        let k = random.below(count);
        let more = random.between(1, left).min(LARGEST_BOUND - lowers[k]);
        lowers[k] += more;
        left -= more;
    }
    lowers
}

/// A random rule near one of the limits, on either side of it.
pub fn edge_rule(random: &mut Random) -> Vec<u8> {
    match random.below(3) {
        0 => {
            let items = random.between(MOST_ITEMS - 1, MOST_ITEMS + 2);
            rule_of_items(random, items)
        }
        1 => {
            let timed = random.between(MOST_TIMED - 1, MOST_TIMED + 2);
            let sum = random.between(0, MOST_LOWER);
            let lowers = lowers_of_sum(random, timed, sum);
            rule_of_lowers(random, &lowers)
        }
        _ => {
            let timed = random.between(LEAST_TIMED, MOST_TIMED);
            let sum = random.between(MOST_LOWER - 2, MOST_LOWER + 2);
            let lowers = lowers_of_sum(random, timed, sum);
            rule_of_lowers(random, &lowers)
        }
    }
}

/// A byte that may stand in a rule: a code byte, one of a number's edges, or
/// any.
pub fn likely_byte(random: &mut Random) -> u8 {
    match random.below(8) {
        0..=3 => random.pick(&CODES),
        4 | 5 => random.below(9) as u8,
        6 => random.pick(&[0x00, 0x01, 0x02, 0x7f, 0x80, 0x81, 0xfe, 0xff]),
        _ => random.byte(),
    }
}

/// Does one damage to a rule: a byte changed, inserted or removed, a cut, or
/// another rule joined on.
fn damage(random: &mut Random, rule: &mut Vec<u8>) {
    match random.below(5) {
        0 if !rule.is_empty() => {
            let at = random.below(rule.len());
            rule[at] = if random.once_in(2) {
                likely_byte(random)
            } else {
                random.byte()
            };
        }
        1 => {
            let at = random.between(0, rule.len());
            let byte = likely_byte(random);
            rule.insert(at, byte);
        }
        2 if !rule.is_empty() => {
            let at = random.below(rule.len());
            rule.remove(at);
        }
        3 => {
            let length = random.between(0, rule.len());
            rule.truncate(length);
        }
        _ => rule.extend(good_rule(random)),
    }
}

/// A good rule, or one near a limit, with one to three damages.
pub fn damaged_rule(random: &mut Random) -> Vec<u8> {
    let mut rule = if random.once_in(4) {
        edge_rule(random)
    } else {
        good_rule(random)
    };
    let times = random.pick(&[1, 1, 1, 2, 3]);
    for _ in 0..times {
        damage(random, &mut rule);
    }
    rule
}

/// Up to so many random bytes. Half of the strings start with a few operands,
/// so that more of the items behind them are reached.
pub fn random_bytes(random: &mut Random, most: usize) -> Vec<u8> {
    let length = random.between(0, most);
    let mut bytes = Vec::new();
    if random.once_in(2) {
        for _ in 0..random.below(5) {
            bytes.push(random.pick(&[0x10, 0x11]));
        }
    }
    while bytes.len() < length {
        bytes.push(likely_byte(random));
    }
    bytes.truncate(length);
    bytes
}

#[cfg(test)]
mod tests {
    use super::*;
    use crate::load::load;

    /// The refusal's number, or 0 for an accepted rule.
    fn number(rule: &[u8]) -> u8 {
        load(rule).map_or_else(|refusal| refusal.number, |_| 0)
    }

    #[test]
    fn good_rules_are_accepted_and_reach_the_limits() {
        let mut random = Random::new(1);
        let mut items = 0;
        let mut timed = 0;
        let mut lower = 0;
        for _ in 0..20_000 {
            let formula = good_formula(&mut random);
            assert_eq!(number(&write(&formula)), 0);
            items = items.max(formula.items());
            timed = timed.max(formula.timed());
            lower = lower.max(formula.lower());
        }
        assert_eq!((items, timed, lower), (MOST_ITEMS, MOST_TIMED, MOST_LOWER));
    }

    #[test]
    fn formulas_to_search_are_within_the_limits() {
        let mut random = Random::new(8);
        for k in 0..20_000 {
            let items = 1 + k % 31;
            let formula = searched_formula(&mut random, items, &mut Budget::of_a_rule());
            assert_eq!(number(&write(&formula)), 0);
            assert!(formula.items() <= 2 * items + 2);
        }
    }

    #[test]
    fn short_rules_are_short_and_good() {
        let mut random = Random::new(2);
        for most in 1..=16 {
            for _ in 0..200 {
                let rule = short_rule(&mut random, most);
                assert!(rule.len() <= most);
                assert_eq!(number(&rule), 0);
            }
        }
    }

    #[test]
    fn the_item_limit_is_met_exactly() {
        let mut random = Random::new(3);
        for _ in 0..500 {
            assert_eq!(number(&rule_of_items(&mut random, MOST_ITEMS)), 0);
            assert_eq!(number(&rule_of_items(&mut random, MOST_ITEMS + 1)), 8);
        }
    }

    #[test]
    fn the_timed_limit_is_met_exactly() {
        let mut random = Random::new(4);
        for _ in 0..500 {
            let lowers = lowers_of_sum(&mut random, MOST_TIMED, 20);
            assert_eq!(number(&rule_of_lowers(&mut random, &lowers)), 0);
            let lowers = lowers_of_sum(&mut random, MOST_TIMED + 1, 20);
            assert_eq!(number(&rule_of_lowers(&mut random, &lowers)), 8);
        }
    }

    #[test]
    fn the_limit_on_lower_bounds_is_met_exactly() {
        let mut random = Random::new(5);
        for _ in 0..500 {
            let timed = random.between(LEAST_TIMED, MOST_TIMED);
            let lowers = lowers_of_sum(&mut random, timed, MOST_LOWER);
            assert_eq!(lowers.len(), timed);
            assert_eq!(lowers.iter().sum::<usize>(), MOST_LOWER);
            assert_eq!(number(&rule_of_lowers(&mut random, &lowers)), 0);
            let lowers = lowers_of_sum(&mut random, timed, MOST_LOWER + 1);
            assert_eq!(number(&rule_of_lowers(&mut random, &lowers)), 8);
        }
    }

    #[test]
    fn damage_leads_to_every_refusal() {
        let mut random = Random::new(6);
        let mut seen = [0; 10];
        for _ in 0..20_000 {
            seen[number(&damaged_rule(&mut random)) as usize] += 1;
        }
        assert!(seen.iter().all(|&count| count > 0), "{seen:?}");
    }

    #[test]
    fn random_bytes_keep_to_their_length() {
        let mut random = Random::new(7);
        let mut lengths = [0; 41];
        for _ in 0..5_000 {
            lengths[random_bytes(&mut random, 40).len()] += 1;
        }
        assert!(lengths.iter().all(|&count| count > 0), "{lengths:?}");
    }
}
