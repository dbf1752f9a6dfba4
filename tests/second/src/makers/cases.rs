//! The list of rules for the makers.

use super::case::Make;
use super::{Maker, MAKERS};
use crate::formula::write;
use crate::limits::{MOST_ITEMS, MOST_LOWER, MOST_TIMED};
use crate::load::cases::samples;
use crate::random::rule::{
    damaged_rule, edge_rule, formula, good_rule, lowers_of_sum, random_bytes, rule_of_lowers,
    short_rule, Budget, LEAST_TIMED,
};
use crate::random::{any_bytes, generator, room_around, Random};

/// Rules for each maker, with a buffer.
pub fn makes(seed: u64) -> Vec<Make> {
    let mut out = Vec::new();
    every_room(&mut generator(seed, 701), &mut out);
    sample_pairs(&mut generator(seed, 702), &mut out);
    item_limits(&mut generator(seed, 703), &mut out);
    timed_limits(&mut generator(seed, 704), &mut out);
    lower_limits(&mut generator(seed, 705), &mut out);
    refusals(&mut generator(seed, 706), &mut out);
    let mut random = generator(seed, 707);
    for _ in 0..4_000 {
        let (first, second) = (good_rule(&mut random), good_rule(&mut random));
        each_maker(&mut random, &first, &second, &mut out);
    }
    out
}

/// A case with a buffer of so many bytes of any value.
fn case(random: &mut Random, maker: Maker, first: &[u8], second: &[u8], room: usize) -> Make {
    let second = if maker.takes_two() { second } else { &[] };
    Make {
        maker,
        first: first.to_vec(),
        second: second.to_vec(),
        buffer: any_bytes(random, room),
    }
}

/// Each maker on two rules or the first of them, with a buffer of a length around
/// that of the new bytes.
fn each_maker(random: &mut Random, first: &[u8], second: &[u8], out: &mut Vec<Make>) {
    for maker in MAKERS {
        let length = maker.new_bytes(first, second).len();
        let room = room_around(random, length);
        out.push(case(random, maker, first, second, room));
    }
}

/// The samples and some short rules, each with buffers of every length up to a
/// little more than that of the new bytes.
fn every_room(random: &mut Random, out: &mut Vec<Make>) {
    let mut rules = samples();
    rules.extend((0..40).map(|k| short_rule(random, 1 + k % 16)));
    for rule in rules {
        for maker in MAKERS {
            let second = short_rule(random, 3);
            let length = maker.new_bytes(&rule, &second).len();
            for room in (0..=length + 3).chain([length + 1_000]) {
                out.push(case(random, maker, &rule, &second, room));
            }
        }
    }
}

/// The samples, each two of them.
fn sample_pairs(random: &mut Random, out: &mut Vec<Make>) {
    for first in samples() {
        for second in samples() {
            each_maker(random, &first, &second, out);
        }
    }
}

/// A random rule of exactly so many items, two of which are within the other
/// limits.
fn half_of_items(random: &mut Random, items: usize) -> Vec<u8> {
    let mut budget = Budget {
        timed: MOST_TIMED / 2,
        lower: MOST_LOWER / 2,
        ..Budget::of_a_rule()
    };
    write(&formula(random, items, &mut budget))
}

/// Two numbers from `least` to `most` that add up to `sum`, as some do.
fn parts(random: &mut Random, sum: usize, least: usize, most: usize) -> (usize, usize) {
    let smallest = least.max(sum.saturating_sub(most));
    let first = random.between(smallest, most.min(sum - least));
    (first, sum - first)
}

/// Around the limit on items: the operator is one too many, or an item of the second
/// rule is, or there are fewer.
fn item_limits(random: &mut Random, out: &mut Vec<Make>) {
    for sum in MOST_ITEMS - 4..=MOST_ITEMS + 4 {
        for _ in 0..60 {
            let (first, second) = parts(random, sum, 1, MOST_ITEMS);
            let first = half_of_items(random, first);
            let second = half_of_items(random, second);
            each_maker(random, &first, &second, out);
        }
    }
    for items in 1..=MOST_ITEMS {
        let full = half_of_items(random, MOST_ITEMS);
        let other = half_of_items(random, items);
        each_maker(random, &full, &other, out);
        each_maker(random, &other, &full, out);
    }
}

/// A random rule with so many timed items, whose lower bounds add up to this.
fn rule_of_timed(random: &mut Random, timed: usize, lower: usize) -> Vec<u8> {
    let lowers = lowers_of_sum(random, timed, lower);
    rule_of_lowers(random, &lowers)
}

/// Around the limit on timed items.
fn timed_limits(random: &mut Random, out: &mut Vec<Make>) {
    for sum in MOST_TIMED - 3..=MOST_TIMED + 4 {
        for _ in 0..60 {
            let (first, second) = parts(random, sum, 0, MOST_TIMED);
            let first = rule_of_timed(random, first, first);
            let second = rule_of_timed(random, second, 2 * second);
            each_maker(random, &first, &second, out);
        }
    }
}

/// Around the limit on the sum of lower bounds.
fn lower_limits(random: &mut Random, out: &mut Vec<Make>) {
    for sum in MOST_LOWER - 3..=MOST_LOWER + 4 {
        for _ in 0..60 {
            let (first, second) = parts(random, sum, 0, MOST_LOWER);
            let timed = random.between(LEAST_TIMED, MOST_TIMED / 2);
            let first = rule_of_timed(random, timed, first);
            let timed = random.between(LEAST_TIMED, MOST_TIMED / 2);
            let second = rule_of_timed(random, timed, second);
            each_maker(random, &first, &second, out);
        }
    }
}

/// What is refused first: the first rule, the second, the new bytes, or 16.
fn refusals(random: &mut Random, out: &mut Vec<Make>) {
    let makes: [fn(&mut Random) -> Vec<u8>; 5] = [
        good_rule,
        edge_rule,
        damaged_rule,
        |random| random_bytes(random, 40),
        |_| vec![],
    ];
    for first in makes {
        for second in makes {
            for _ in 0..100 {
                let (first, second) = (first(random), second(random));
                each_maker(random, &first, &second, out);
            }
        }
    }
    // 100,000 bytes, one item of which is too many.
    let long = [&[0x10], &[0x20; 99_999][..]].concat();
    each_maker(random, &long, &[0x10], out);
    each_maker(random, &[0x10], &long, out);
}

#[cfg(test)]
mod tests {
    use super::*;
    use crate::entry::tests::a_seed_fixes_the_list;
    use crate::load::load;
    use crate::makers::{make, Made, Which};

    fn made(case: &Make) -> Made {
        let mut buffer = case.buffer.clone();
        make(case.maker, &case.first, &case.second, &mut buffer)
    }

    #[test]
    fn a_seed_fixes_the_rules() {
        a_seed_fixes_the_list::<Make>(35_000..50_000);
    }

    #[test]
    fn rules_are_made_and_refused_in_each_way() {
        // By maker, which bytes are refused, and number; at 0, none are.
        let mut seen = [[[0; 17]; 4]; 4];
        for case in makes(1) {
            let maker = MAKERS
                .iter()
                .position(|&maker| maker == case.maker)
                .unwrap();
            let (which, number) = match made(&case) {
                Ok(_) => (0, 0),
                Err(refused) => (refused.which as usize + 1, refused.number),
            };
            seen[maker][which][number as usize] += 1;
        }
        for (maker, seen) in MAKERS.into_iter().zip(seen) {
            let [good, first, second, new] = seen;
            assert!(good[0] > 2_500, "{maker:?}: {good:?}");
            assert!(first[1..=9].iter().all(|&count| count > 20), "{first:?}");
            assert!(first[10..].iter().all(|&count| count == 0), "{first:?}");
            let least = if maker.takes_two() { 20 } else { 0 };
            assert!(second[1..=9].iter().all(|&count| count >= least));
            let most = if maker.takes_two() { 2_000 } else { 0 };
            assert!(second.iter().all(|&count| count <= most), "{second:?}");
            assert!(new[8] > 50 && new[16] > 1_000, "{maker:?}: {new:?}");
            assert_eq!(new.iter().sum::<usize>(), new[8] + new[16]);
        }
    }

    #[test]
    fn buffers_have_the_lengths_around_the_new_bytes() {
        let mut seen = [0; 5];
        for case in makes(1) {
            let length = case.maker.new_bytes(&case.first, &case.second).len();
            let room = case.buffer.len();
            seen[0] += usize::from(room == 0);
            seen[1] += usize::from(room + 1 == length);
            seen[2] += usize::from(room == length);
            seen[3] += usize::from(room == length + 1);
            seen[4] += usize::from(room > length + 100);
        }
        assert!(seen.iter().all(|&count| count > 1_000), "{seen:?}");
    }

    #[test]
    fn each_limit_is_met_exactly_and_passed_by_one() {
        let mut seen = [[0; 2]; 3];
        for case in makes(1) {
            let (Ok(first), Ok(second)) = (load(&case.first), load(&case.second)) else {
                continue;
            };
            let sums = [
                (first.items + second.items + 1, MOST_ITEMS),
                (first.formula.timed() + second.formula.timed(), MOST_TIMED),
                (first.formula.lower() + second.formula.lower(), MOST_LOWER),
            ];
            for (k, (sum, most)) in sums.into_iter().enumerate() {
                // The other limits are kept.
                let kept = sums.iter().filter(|&&(sum, most)| sum <= most).count();
                seen[k][0] += usize::from(sum == most && kept == 3);
                seen[k][1] += usize::from(sum == most + 1 && kept == 2);
            }
        }
        assert!(seen.iter().flatten().all(|&count| count > 50), "{seen:?}");
    }

    #[test]
    fn the_new_bytes_are_refused_in_the_second_rule_and_behind_it() {
        let (mut inside, mut behind) = (0, 0);
        for case in makes(1) {
            let Err(refused) = made(&case) else {
                continue;
            };
            if case.maker.takes_two() && (refused.which, refused.number) == (Which::New, 8) {
                let start = case.first.len();
                let end = start + case.second.len();
                assert!(refused.place >= start && refused.place <= end);
                inside += usize::from(refused.place < end);
                behind += usize::from(refused.place == end);
            }
        }
        assert!(inside > 500 && behind > 100, "{inside} and {behind}");
    }
}
