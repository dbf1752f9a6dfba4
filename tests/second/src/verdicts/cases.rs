//! The list of rules and clips for verdicts.

use super::case::Verdicts;
use crate::emit::cases::{operators, windows, BOUNDS};
use crate::formula::{write, Formula, Window};
use crate::limits::{LARGEST_BOUND, LARGEST_FLAG, MOST_FRAMES, MOST_ITEMS, MOST_LOWER, MOST_TIMED};
use crate::random::code::clip;
use crate::random::rule::{damaged_rule, formula, good_rule, rule_of_items, Budget};
use crate::random::{any_bytes, generator, Random};

/// A flag is in so many of 64 frames: from nearly none to nearly all.
const DENSITIES: [usize; 7] = [1, 3, 8, 32, 56, 61, 63];

/// So many frames are more than any one window takes.
const LONG_CLIP: usize = 600;

/// Rules, each with a clip and a buffer.
pub fn verdicts(seed: u64) -> Vec<Verdicts> {
    let mut out = Vec::new();
    every_small_clip(&mut out);
    one_frame_differs(&mut generator(seed, 501), &mut out);
    random_rules(&mut generator(seed, 502), &mut out);
    let mut random = generator(seed, 503);
    for _ in 0..1_500 {
        let rule = rule_of_long_windows(&mut random);
        let frames = random.between(100, LONG_CLIP);
        out.push(case(&mut random, rule, frames));
    }
    let mut random = generator(seed, 504);
    for k in 0..1_200 {
        let rule = rule_of_items(&mut random, MOST_ITEMS);
        let most = if k % 12 == 0 { LONG_CLIP } else { 60 };
        let frames = random.between(1, most);
        out.push(case(&mut random, rule, frames));
    }
    refusals(&mut generator(seed, 505), &mut out);
    largest_clips(&mut generator(seed, 506), &mut out);
    out
}

/// Random rules with random clips of up to 60 frames.
fn random_rules(random: &mut Random, out: &mut Vec<Verdicts>) {
    for _ in 0..12_000 {
        let rule = random_rule(random);
        let most = random.pick(&[4, 30, 30, 60]);
        let frames = random.between(1, most);
        out.push(case(random, rule, frames));
    }
}

/// A random rule with few or many items, small or large windows, and few or
/// many flags.
fn random_rule(random: &mut Random) -> Vec<u8> {
    let mut budget = Budget {
        timed: random.between(1, MOST_TIMED),
        lower: random.pick(&[2, 12, 60, MOST_LOWER]),
        bound: random.pick(&[1, 3, 6, 20, LARGEST_BOUND]),
        flag: random.pick(&[0, 1, 2, LARGEST_FLAG]),
    };
    let most = random.pick(&[4, 9, 20, MOST_ITEMS]);
    let items = random.between(1, most);
    write(&formula(random, items, &mut budget))
}

/// A random rule with few items and one to three windows of any size.
fn rule_of_long_windows(random: &mut Random) -> Vec<u8> {
    let mut budget = Budget {
        timed: random.between(1, 3),
        lower: random.pick(&[0, 64, MOST_LOWER]),
        bound: random.pick(&[126, 127, 128, LARGEST_BOUND - 1, LARGEST_BOUND]),
        flag: 1,
    };
    let items = random.between(2, 8);
    write(&formula(random, items, &mut budget))
}

/// A rule over a random clip, with a buffer of any bytes: as long, longer, or
/// now and then shorter.
fn case(random: &mut Random, rule: Vec<u8>, frames: usize) -> Verdicts {
    let room = match random.below(32) {
        0 => frames.saturating_sub(1),
        1 => random.between(0, frames),
        2..=5 => frames + 1,
        6..=9 => frames + random.below(40),
        _ => frames,
    };
    Verdicts {
        rule,
        clip: flagged_clip(random, frames),
        buffer: any_bytes(random, room),
    }
}

/// A random clip of so many frames: of any sort, or with each flag as dense as
/// one of the densities.
fn flagged_clip(random: &mut Random, frames: usize) -> Vec<u8> {
    if random.once_in(3) {
        return clip(random, frames);
    }
    let densities = [(); LARGEST_FLAG + 1].map(|()| random.pick(&DENSITIES));
    let mut clip = vec![0; frames];
    for frame in &mut clip {
        for (k, density) in densities.into_iter().enumerate() {
            if random.below(64) < density {
                *frame += 1 << k;
            }
        }
    }
    clip
}

/// Every item over flags 0 and 1, with every window up to 3, on every clip of
/// at most four frames that have no other flag.
fn every_small_clip(out: &mut Vec<Verdicts>) {
    let mut formulas = vec![Formula::True, Formula::False, Formula::Flag(0)];
    let windows = windows(&[0, 1, 2, 3]);
    formulas.extend(operators(&Formula::Flag(0), &Formula::Flag(1), &windows));
    for f in formulas {
        for frames in 1..=4 {
            for number in 0..1usize << (2 * frames) {
                let frame = |k: usize| (number >> (2 * k)) as u8 & 3;
                out.push(Verdicts {
                    rule: write(&f),
                    clip: (0..frames).map(frame).collect(),
                    buffer: vec![0x55; frames + 1],
                });
            }
        }
    }
}

/// Every operator over flags 0 and 1, with windows whose bounds are at an edge,
/// on long clips whose frames are all the same save for at most one.
fn one_frame_differs(random: &mut Random, out: &mut Vec<Verdicts>) {
    let windows = windows(&BOUNDS);
    for f in operators(&Formula::Flag(0), &Formula::Flag(1), &windows) {
        for pair in 0..16 {
            let mut clip = vec![pair / 4; LONG_CLIP];
            clip[random.between(LARGEST_BOUND + 1, LONG_CLIP - 1)] = pair % 4;
            out.push(Verdicts {
                rule: write(&f),
                clip,
                buffer: vec![0x55; LONG_CLIP],
            });
        }
    }
}

/// What is refused first: the rule, 13 or 16.
fn refusals(random: &mut Random, out: &mut Vec<Verdicts>) {
    for _ in 0..1_000 {
        let rule = damaged_rule(random);
        let frames = random.below(20);
        out.push(case(random, rule, frames));
    }
    for _ in 0..50 {
        for rule in [damaged_rule(random), good_rule(random)] {
            for (frames, room) in [(0, 0), (0, 1), (1, 0), (1, 1), (30, 29), (30, 30)] {
                out.push(Verdicts {
                    rule: rule.clone(),
                    clip: flagged_clip(random, frames),
                    buffer: any_bytes(random, room),
                });
            }
        }
    }
}

/// Clips of the largest size and of one frame more, by a rule of few items.
fn largest_clips(random: &mut Random, out: &mut Vec<Verdicts>) {
    for (frames, room) in [
        (MOST_FRAMES, MOST_FRAMES),
        (MOST_FRAMES, MOST_FRAMES - 1),
        (MOST_FRAMES + 1, MOST_FRAMES + 1),
        (MOST_FRAMES + 1, 0),
    ] {
        let rule = Formula::Until(
            Window { a: 1, b: 9 },
            Box::new(Formula::Flag(0)),
            Box::new(Formula::Flag(1)),
        );
        out.push(Verdicts {
            rule: write(&rule),
            clip: flagged_clip(random, frames),
            buffer: any_bytes(random, room),
        });
    }
}

#[cfg(test)]
mod tests {
    use super::*;
    use crate::emit::cases::tests::every_item_often;
    use crate::emit::emit;
    use crate::entry::tests::{a_seed_fixes_the_list, number, numbers};
    use crate::entry::Case;
    use crate::instruction;
    use crate::load::load;
    use crate::meaning::{self, holds};
    use crate::run::case::Run;
    use crate::verdicts::write_verdicts;

    /// How many timed items lie inside each other at most.
    fn nested(f: &Formula) -> usize {
        let own = usize::from(f.window().is_some());
        own + f.operands().into_iter().map(nested).max().unwrap_or(0)
    }

    #[test]
    fn a_seed_fixes_the_clips() {
        a_seed_fixes_the_list::<Verdicts>(25_000..40_000);
    }

    #[test]
    fn verdicts_are_given_and_refused_in_each_way() {
        let cases = verdicts(1);
        let seen = numbers(&cases);
        assert!(seen[0] > 25_000, "{seen:?}");
        assert!(seen[13] > 100 && seen[16] > 500, "{seen:?}");
        assert!(seen[1..=9].iter().all(|&count| count > 10), "{seen:?}");
        assert_eq!(seen[10..13], [0; 3]);
        assert_eq!(seen[14..16], [0; 2]);
        let answered = cases.iter().filter(|case| number(*case) == 0);
        let formulas: Vec<Formula> = answered
            .map(|case| load(&case.rule).unwrap().formula)
            .collect();
        every_item_often(&formulas);
        assert!(formulas.iter().filter(|f| nested(f) > 3).count() > 2_000);
        // The window of the whole rule lies past the end of the clip.
        let past = |case: &&Verdicts| {
            let frames = case.clip.len();
            let window = load(&case.rule).ok().and_then(|rule| rule.formula.window());
            window.is_some_and(|w| w.a > 0 && w.a >= frames && frames > 0)
        };
        assert!(cases.iter().filter(past).count() > 1_000);
    }

    #[test]
    fn random_verdicts_are_mixed() {
        let mut random = Random::new(1);
        for (make, frames) in [
            (random_rule as fn(&mut Random) -> Vec<u8>, 30),
            (rule_of_long_windows, 300),
        ] {
            let mut both = 0;
            for _ in 0..1_000 {
                let rule = load(&make(&mut random)).unwrap();
                let clip = flagged_clip(&mut random, frames);
                let verdicts = meaning::verdicts(&rule.formula, &clip);
                both += usize::from(verdicts.contains(&false) && verdicts.contains(&true));
            }
            assert!(both > 400, "{both}");
        }
    }

    #[test]
    fn the_meaning_and_a_run_of_emitted_code_agree() {
        let mut agreed = 0;
        for case in verdicts(1) {
            let Ok(rule) = load(&case.rule) else {
                continue;
            };
            let run = Run {
                code: instruction::write(&emit(&rule.formula)),
                clip: case.clip.clone(),
                buffer: case.buffer.clone(),
            };
            assert_eq!(case.answer(), run.answer(), "{rule:?}");
            agreed += 1;
        }
        assert!(agreed > 25_000);
    }

    /// How many questions `holds` asks at most about one of so many frames.
    fn questions(f: &Formula, frames: usize) -> u64 {
        let mut asked: Vec<u64> = f.operands().iter().map(|f| questions(f, frames)).collect();
        if let Some(w) = f.window() {
            let places = (w.b.min(frames - 1) + 1).saturating_sub(w.a) as u64;
            let right = asked.pop().unwrap_or(0).saturating_mul(places);
            let left = asked.pop().unwrap_or(0).saturating_mul(places * places);
            return 1 + right.saturating_add(left).min(u64::MAX / 2);
        }
        asked.into_iter().fold(1, u64::saturating_add)
    }

    /// `verdicts` keeps its operands' answers; where it is not too long, `holds` is
    /// asked about each frame by itself, and says the same.
    #[test]
    fn ten_thousand_random_rules_are_asked_about_frame_by_frame() {
        let mut cases = Vec::new();
        random_rules(&mut generator(1, 502), &mut cases);
        let mut compared = 0;
        for Verdicts { rule, clip, buffer } in &cases {
            let f = load(rule).expect("a good rule").formula;
            let all = questions(&f, clip.len()).saturating_mul(clip.len() as u64);
            if buffer.len() < clip.len() || all > 1_000_000 {
                continue;
            }
            let mut written = buffer.clone();
            assert_eq!(write_verdicts(rule, clip, &mut written), Ok(()));
            for (i, &verdict) in written[..clip.len()].iter().enumerate() {
                assert_eq!(verdict, u8::from(holds(&f, clip, i)), "{f:?}, frame {i}");
            }
            compared += 1;
        }
        assert!(compared >= 10_000, "{compared} rules");
    }
}
