//! The list of input for the program. Each case is a start of that program, so there
//! are few.

use super::MOST_READ;
use crate::formula::write;
use crate::limits::{LARGEST_BOUND, LARGEST_FLAG};
use crate::load::cases::samples;
use crate::random::rule::{damaged_rule, good_rule, searched_formula, Budget};
use crate::random::{generator, Random};

/// The input: none, samples, random rules to search, damaged ones, and more bytes than
/// are read.
pub fn inputs(seed: u64) -> Vec<Vec<u8>> {
    let mut out = vec![vec![]];
    out.extend(samples());
    let mut random = generator(seed, 801);
    out.extend((0..150).map(|_| searched_rule(&mut random)));
    let mut random = generator(seed, 802);
    out.extend((0..100).map(|_| damaged_rule(&mut random)));
    let mut random = generator(seed, 803);
    for length in [MOST_READ - 1, MOST_READ, MOST_READ + 1, 2 * MOST_READ] {
        let mut long = Vec::new();
        while long.len() < length {
            long.extend(good_rule(&mut random));
        }
        long.truncate(length);
        out.push(long);
    }
    out
}

/// A random rule of few states, most often.
fn searched_rule(random: &mut Random) -> Vec<u8> {
    let mut budget = Budget {
        timed: random.between(1, 4),
        lower: random.pick(&[0, 2, 4, 8]),
        bound: random.pick(&[1, 3, 6, 12, LARGEST_BOUND]),
        flag: random.pick(&[0, 0, 1, LARGEST_FLAG]),
    };
    let items = random.between(1, 10);
    write(&searched_formula(random, items, &mut budget))
}

#[cfg(test)]
mod tests {
    use super::*;
    use crate::entry::tests::a_seed_fixes_the_list;
    use crate::standing::case::Standing;
    use crate::standing::text;

    #[test]
    fn a_seed_fixes_the_input() {
        a_seed_fixes_the_list::<Standing>(270..300);
    }

    #[test]
    fn rules_are_met_or_not_and_refused() {
        let mut seen = [0; 3];
        for input in inputs(1) {
            let text = text(&input);
            let kinds = ["\nmet ", "\nnone ", "refused "];
            let kind = kinds.iter().position(|word| text.contains(word));
            seen[kind.expect("one of the three")] += 1;
        }
        assert!(seen.iter().all(|&count| count > 20), "{seen:?}");
    }
}
