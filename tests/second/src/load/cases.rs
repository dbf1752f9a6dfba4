//! The list of rules that both programs load, the same for the same seed.

use crate::limits::{LARGEST_BOUND, MOST_ITEMS, MOST_LOWER, MOST_TIMED};
use crate::number;
use crate::random::rule::{
    damaged_rule, good_rule, lowers_of_sum, random_bytes, rule_of_items, rule_of_lowers,
    short_rule, CODES, LEAST_TIMED,
};
use crate::random::{generator, Random};
use crate::text::bytes;

/// The rules of document 01's samples and of the readings of it.
const SAMPLES: [&str; 25] = [
    "12 00",
    "10",
    "11",
    "12 00 12 00 20 21",
    "12 00 32 02 04",
    "12 00 33 02 04",
    "10 32 01 01",
    "12 00 33 00 02 12 00 20 32 01 01 21",
    "12 00 33 01 03 32 02 04",
    "12 08",
    "12",
    "12 80 00",
    "12 00 32 04 02",
    "12 00 32 00 80 02",
    "12 00 32 00 ff 01",
    "21",
    "10 10",
    "12 00 12 01 30 01 03",
    "12 80",
    "12 80 80",
    "32 05",
    "32 04 02",
    "32 80 00",
    "12 00 12 00 20 32 01 01 22",
    "12 00 32 0a 0a 11 21",
];

/// A good rule with every code in it, and with the largest sum of lower bounds.
const EVERY_CODE: &str =
    "10 11 12 03 20 21 22 12 07 30 01 80 01 10 31 00 7f 32 7f ff 01 33 80 01 80 01";

/// Forms of a number: each good one at an edge, and each kind of bad one.
const FORMS: [&[u8]; 26] = [
    &[],
    &[0x00],
    &[0x01],
    &[0x02],
    &[0x07],
    &[0x08],
    &[0x7e],
    &[0x7f],
    &[0x80],
    &[0xff],
    &[0x80, 0x00],
    &[0x81, 0x00],
    &[0xff, 0x00],
    &[0x80, 0x01],
    &[0x81, 0x01],
    &[0xfe, 0x01],
    &[0xff, 0x01],
    &[0x80, 0x02],
    &[0x81, 0x02],
    &[0x80, 0x7f],
    &[0xff, 0x7f],
    &[0x80, 0x80],
    &[0xff, 0x80],
    &[0xff, 0xff],
    &[0x80, 0x80, 0x00],
    &[0xff, 0xff, 0x01],
];

/// Items that go wrong in each way, or that only a limit can refuse.
const TAILS: [&str; 26] = [
    "10",
    "11",
    "12 00",
    "12 07",
    "20",
    "21",
    "22",
    "30 00 00",
    "31 00 00",
    "32 00 00",
    "33 00 00",
    "32 01 01",
    "33 02 02",
    "00",
    "13",
    "34",
    "12",
    "12 80",
    "12 80 00",
    "12 80 80",
    "12 08",
    "32",
    "32 05",
    "32 80 00",
    "32 04 02",
    "32 00 80 02",
];

pub type Rules = Vec<Vec<u8>>;

/// A part of the list, with a short name for it.
pub struct Part {
    pub name: &'static str,
    pub rules: Rules,
}

/// The whole list in its order. Each part draws from a generator of its own, so
/// that a change in one part leaves the others as they are.
pub fn parts(seed: u64) -> Vec<Part> {
    let part = |name, rules| Part { name, rules };
    let random = |number: u64| generator(seed, number);
    vec![
        part("empty", vec![vec![]]),
        part("single bytes", (0..=255).map(|byte| vec![byte]).collect()),
        part("prefixes", prefixes(&mut random(1))),
        part("code and byte", code_and_byte()),
        part("changed bytes", changed_bytes(&mut random(2))),
        part("edges", edges(&mut random(3))),
        part("good", many(20_000, &mut random(4), good_rule)),
        part("damaged", many(20_000, &mut random(5), damaged_rule)),
        part(
            "random bytes",
            many(20_000, &mut random(6), |random| random_bytes(random, 40)),
        ),
        part("long", vec![vec![0x20; 100_000]]),
    ]
}

fn many(count: usize, random: &mut Random, make: fn(&mut Random) -> Vec<u8>) -> Rules {
    (0..count).map(|_| make(random)).collect()
}

/// Two byte strings, one behind the other.
fn joined(first: &[u8], second: &[u8]) -> Vec<u8> {
    [first, second].concat()
}

/// The samples, and one rule with every code.
pub fn samples() -> Rules {
    let mut rules: Rules = SAMPLES.iter().map(|text| bytes(text)).collect();
    rules.push(bytes(EVERY_CODE));
    rules
}

/// Every prefix of the samples, of one rule with every code, and of some random
/// rules.
fn prefixes(random: &mut Random) -> Rules {
    let mut rules = samples();
    for _ in 0..60 {
        rules.push(good_rule(random));
    }
    let mut out = Vec::new();
    for rule in rules {
        for length in 0..=rule.len() {
            out.push(rule[..length].to_vec());
        }
    }
    out
}

/// Every two bytes of which the first is a code.
fn code_and_byte() -> Rules {
    let mut out = Vec::new();
    for code in CODES {
        for byte in 0..=255 {
            out.push(vec![code, byte]);
        }
    }
    out
}

/// Every change of one byte in 150 random rules of 4 to 16 bytes at most: 10
/// bytes on average, so fewer than 400,000 cases whatever the seed.
fn changed_bytes(random: &mut Random) -> Rules {
    let mut out = Vec::new();
    for k in 0..150 {
        let most = 4 + k % 13;
        let mut rule = short_rule(random, most);
        // Most of the allowed length is used.
        while rule.len() + 2 < most {
            rule = short_rule(random, most);
        }
        for place in 0..rule.len() {
            for byte in 0..=255 {
                if byte != rule[place] {
                    let mut changed = rule.clone();
                    changed[place] = byte;
                    out.push(changed);
                }
            }
        }
    }
    out
}

/// Rules on either side of each limit.
pub fn edges(random: &mut Random) -> Rules {
    let mut out = Vec::new();
    item_edges(random, &mut out);
    timed_edges(random, &mut out);
    lower_edges(random, &mut out);
    number_edges(&mut out);
    operand_edges(&mut out);
    out
}

/// Around the limit on items.
fn item_edges(random: &mut Random, out: &mut Rules) {
    for items in MOST_ITEMS - 3..=MOST_ITEMS + 4 {
        // Values only; one value under many "not"; a row of "and".
        out.push(vec![0x10; items]);
        out.push(joined(&[0x10], &vec![0x20; items - 1]));
        let values = items.div_ceil(2);
        out.push(joined(&vec![0x10; values], &vec![0x21; items - values]));
        let mut row = vec![0x10];
        while row.len() < items {
            row.extend([0x11, 0x22]);
        }
        out.push(row);
        for _ in 0..40 {
            out.push(rule_of_items(random, items));
        }
    }
    // One more item behind a full rule, and behind one that is nearly full or
    // overfull.
    for items in MOST_ITEMS - 1..=MOST_ITEMS + 1 {
        let under_nots = joined(&[0x10], &vec![0x20; items - 1]);
        let values = vec![0x10; items];
        let any = rule_of_items(random, items);
        for start in [under_nots, values, any] {
            for tail in TAILS {
                out.push(joined(&start, &bytes(tail)));
            }
        }
    }
}

/// Around the limit on timed items.
fn timed_edges(random: &mut Random, out: &mut Rules) {
    for timed in MOST_TIMED - 2..=MOST_TIMED + 3 {
        for code in [0x30, 0x31, 0x32, 0x33] {
            for (a, b) in [(0, 0), (0, 1), (1, 1), (2, 3)] {
                let mut rule = vec![0x12, 0x00];
                for _ in 0..timed {
                    if code < 0x32 {
                        rule.extend([0x12, 0x01]);
                    }
                    rule.extend([code, a, b]);
                }
                out.push(joined(&rule, &[0x20]));
                out.push(rule);
            }
        }
        for _ in 0..60 {
            let sum = random.between(0, MOST_LOWER);
            let lowers = lowers_of_sum(random, timed, sum);
            out.push(rule_of_lowers(random, &lowers));
        }
    }
    // One more item behind rules with all the timed items they may have.
    for timed in [MOST_TIMED - 1, MOST_TIMED] {
        let lowers = lowers_of_sum(random, timed, MOST_TIMED);
        let start = rule_of_lowers(random, &lowers);
        for tail in TAILS {
            out.push(joined(&start, &bytes(tail)));
            out.push([&start[..], &[0x10], &bytes(tail)].concat());
        }
    }
}

/// Around the limit on the sum of lower bounds.
fn lower_edges(random: &mut Random, out: &mut Rules) {
    let (most, half) = (LARGEST_BOUND, MOST_LOWER / 2);
    let (rest, equal) = (MOST_LOWER - most, MOST_LOWER / MOST_TIMED);
    let mut lists: Vec<Vec<usize>> = vec![
        vec![most],
        vec![most, rest - 1],
        vec![most, rest],
        vec![rest, most],
        vec![most, rest + 1],
        vec![rest + 1, most],
        vec![most, most],
        vec![half - 1, half],
        vec![half, half],
        vec![half, half + 1],
        vec![half - 1, half + 1, 0],
        vec![half - 1, half + 1, 1],
        vec![most - 1, rest, 1],
        vec![most - 1, rest, 1, 1],
        vec![equal; MOST_TIMED],
        vec![equal; MOST_TIMED + 1],
        vec![equal + 1; MOST_TIMED - 1],
        vec![equal + 1; MOST_TIMED],
        vec![most; MOST_TIMED],
    ];
    for sum in MOST_LOWER - 4..=MOST_LOWER + 4 {
        for timed in LEAST_TIMED..=MOST_TIMED + 1 {
            for _ in 0..4 {
                lists.push(lowers_of_sum(random, timed, sum));
            }
        }
    }
    for lowers in lists {
        for _ in 0..3 {
            out.push(rule_of_lowers(random, &lowers));
        }
    }
    // One more item where the sum is just short of the limit or at it.
    for sum in MOST_LOWER - 2..=MOST_LOWER {
        let lowers = lowers_of_sum(random, 3, sum);
        let start = rule_of_lowers(random, &lowers);
        for tail in TAILS {
            out.push(joined(&start, &bytes(tail)));
            out.push([&start[..], &[0x10], &bytes(tail)].concat());
        }
    }
}

/// Numbers in all forms, in flags and windows, and all pairs of bounds around
/// the edges.
fn number_edges(out: &mut Rules) {
    for form in FORMS {
        let flag = joined(&[0x12], form);
        out.push(joined(&flag, &[0x20]));
        out.push(joined(&[0x10], &flag));
        out.push(flag);
    }
    for first in [0x80, 0x81, 0x87, 0x88, 0xfe, 0xff] {
        for second in 0..=255 {
            out.push(vec![0x12, first, second]);
            out.push(vec![0x10, 0x32, 0x00, first, second]);
            out.push(vec![0x10, 0x33, first, second, 0xff, 0x01]);
        }
    }
    for code in [0x30, 0x31, 0x32, 0x33] {
        for operands in 0..=2 {
            for a in FORMS {
                for b in FORMS {
                    let item = [&[code], a, b].concat();
                    out.push(joined(&vec![0x10; operands], &item));
                }
            }
        }
    }
    // Every upper bound and every lower bound up to a little past the limit.
    for bound in 0..=LARGEST_BOUND + 45 {
        let mut form = Vec::new();
        number::write(bound, &mut form);
        for code in [0x30, 0x31, 0x32, 0x33] {
            out.push([&[0x12, 0x00, 0x10, code, 0x00], &form[..]].concat());
            out.push([&[0x10, code], &form[..], &form].concat());
            out.push([&[0x10, 0x10, code], &form[..], &[0xff, 0x01]].concat());
        }
    }
}

/// Every code behind no, one, two and three values, alone and with more items
/// behind it.
fn operand_edges(out: &mut Rules) {
    for values in 0..=3 {
        for tail in TAILS {
            let rule = joined(&vec![0x11; values], &bytes(tail));
            for more in TAILS {
                out.push(joined(&rule, &bytes(more)));
            }
            out.push(rule);
        }
    }
}

#[cfg(test)]
mod tests {
    use super::*;
    use crate::formula::write;
    use crate::limits::BYTES;
    use crate::load::load;

    fn number(rule: &[u8]) -> usize {
        load(rule).map_or_else(|refusal| refusal.number as usize, |_| 0)
    }

    #[test]
    fn the_parts_have_their_sizes() {
        for seed in [1, 2, u64::MAX] {
            let parts = parts(seed);
            let size = |k: usize| parts[k].rules.len();
            assert_eq!(parts.len(), 10);
            assert_eq!(size(0), 1);
            assert_eq!(size(1), BYTES);
            assert_eq!(size(3), CODES.len() * BYTES);
            assert!(size(4) > 300_000 && size(4) < 400_000, "{}", size(4));
            assert_eq!(size(6), 20_000);
            assert_eq!(size(7), 20_000);
            assert_eq!(size(8), 20_000);
            assert_eq!(size(9), 1);
            for part in &parts {
                assert!(part.rules.iter().all(|rule| rule.len() <= 100_000));
            }
            assert!(parts[8].rules.iter().all(|rule| rule.len() <= 40));
        }
    }

    #[test]
    fn a_seed_fixes_the_list() {
        let lists: Vec<Vec<Rules>> = [1, 1, 2]
            .into_iter()
            .map(|seed| parts(seed).into_iter().map(|part| part.rules).collect())
            .collect();
        assert_eq!(lists[0], lists[1]);
        assert_ne!(lists[0], lists[2]);
    }

    #[test]
    fn good_rules_are_good_and_each_refusal_is_met_often() {
        let parts = parts(1);
        assert!(parts[6].rules.iter().all(|rule| number(rule) == 0));
        assert_eq!(number(&bytes(EVERY_CODE)), 0);
        let mut seen = [0; 10];
        for part in &parts {
            for rule in &part.rules {
                seen[number(rule)] += 1;
            }
        }
        assert!(seen[1] > 0);
        for (number, count) in seen.iter().enumerate() {
            assert!(number == 1 || *count > 500, "{number}: {seen:?}");
        }
        let mut at_edges = [0; 10];
        for rule in &parts[5].rules {
            at_edges[number(rule)] += 1;
        }
        for (number, count) in at_edges.iter().enumerate() {
            assert!(number == 1 || *count > 100, "{number}: {at_edges:?}");
        }
    }

    #[test]
    fn an_accepted_rule_is_written_back_byte_for_byte() {
        for part in parts(3) {
            for rule in &part.rules {
                match load(rule) {
                    Ok(loaded) => {
                        assert_eq!(&write(&loaded.formula), rule);
                        assert_eq!(loaded.items, loaded.formula.items());
                        assert!(loaded.items <= MOST_ITEMS);
                        assert!(loaded.formula.timed() <= MOST_TIMED);
                        assert!(loaded.formula.lower() <= MOST_LOWER);
                    }
                    Err(refusal) => match refusal.number {
                        1 => assert_eq!(refusal.place, 0),
                        9 => assert_eq!(refusal.place, rule.len()),
                        _ => assert!(refusal.place < rule.len()),
                    },
                }
            }
        }
    }

    #[test]
    fn a_refusal_inside_a_rule_needs_no_byte_behind_its_item() {
        // Items are judged in turn: what follows the item at fault says
        // nothing, unless bytes ran out inside it.
        for rule in &parts(4)[7].rules {
            if let Err(refusal) = load(rule) {
                if [2, 5, 6, 7, 8].contains(&refusal.number) {
                    let longer = joined(rule, &[0x13]);
                    assert_eq!(load(&longer), Err(refusal));
                }
            }
        }
    }
}
