//! Every clip in turn, for tiny rules: the first one that satisfies a rule, by
//! the rule's meaning, and how many states clips reach, each by its own steps
//! from fresh registers. Nothing is remembered from one clip to the next, save
//! for the states that are counted.

use crate::emit::emit;
use crate::formula::Formula;
use crate::instruction::Instruction;
use crate::machine::Registers;
use crate::meaning::holds;
use std::collections::HashSet;

/// All clips of so many frames of these bytes, which rise, in document 01's
/// order: compared from the last frame backwards.
fn clips(bytes: &[u8], frames: usize) -> impl Iterator<Item = Vec<u8>> + '_ {
    let count = bytes.len().pow(frames as u32);
    (0..count).map(move |number| {
        // The first frame changes from clip to clip, the last one least often.
        let digit = |place: usize| number / bytes.len().pow(place as u32) % bytes.len();
        (0..frames).map(|place| bytes[digit(place)]).collect()
    })
}

/// The first clip of these bytes, which rise, that satisfies a formula. A longer
/// one than the horizon and one frame satisfies it exactly if those first frames
/// do, so it is not the first.
pub fn first_clip(f: &Formula, bytes: &[u8]) -> Option<Vec<u8>> {
    let mut all = (1..=f.horizon() + 1).flat_map(|frames| clips(bytes, frames));
    all.find(|clip| holds(f, clip, 0))
}

/// The state that a clip reaches.
fn state_of(code: &[Instruction], clip: &[u8]) -> Registers {
    let mut registers = Registers::fresh();
    for &frame in clip.iter().rev() {
        registers.take(code, frame);
    }
    registers
}

/// How many states the clips of these bytes and fewer frames than these reach, or
/// all clips of these bytes. Where those of one length reach no new state, longer
/// ones do not either: one frame more leads from a state that a shorter clip
/// reaches.
pub fn count_states(f: &Formula, bytes: &[u8], frames: Option<usize>) -> usize {
    let code = emit(f);
    let mut states = HashSet::new();
    for length in 0..frames.unwrap_or(usize::MAX) {
        let shorter = states.len();
        states.extend(clips(bytes, length).map(|clip| state_of(&code, &clip)));
        if states.len() == shorter {
            break;
        }
    }
    states.len()
}

#[cfg(test)]
mod tests {
    use super::*;
    use crate::formula::write;
    use crate::limits::{LARGEST_FLAG, RECORD};
    use crate::random::rule::{searched_formula, Budget};
    use crate::random::Random;
    use crate::refusal::Refusal;
    use crate::search::{bytes_of_flags, explore, search, Answer};

    /// A random formula with so few flags and so small a horizon that every clip
    /// can be tried.
    fn tiny_formula(random: &mut Random) -> Formula {
        loop {
            let mut budget = Budget {
                timed: random.between(1, 4),
                lower: random.between(0, 8),
                bound: random.between(1, 8),
                flag: random.pick(&[0, 0, 1, 1, 2, LARGEST_FLAG]),
            };
            let items = random.between(1, 9);
            let f = searched_formula(random, items, &mut budget);
            let frames = f.horizon() as u32 + 2;
            let clips = bytes_of_flags(&f).len().checked_pow(frames);
            // Those without a window are met or not at the first frame.
            if f.horizon() > 0 && clips.is_some_and(|clips| clips <= 4_096) {
                return f;
            }
        }
    }

    /// A random formula of this horizon, 0 or 1, over up to eight flags.
    fn short_formula(random: &mut Random, horizon: usize) -> Formula {
        loop {
            let mut budget = Budget {
                timed: random.between(0, 4),
                lower: random.between(0, 4),
                bound: horizon,
                flag: random.pick(&[0, 1, 2, LARGEST_FLAG]),
            };
            let items = random.between(1, 9);
            let f = searched_formula(random, items, &mut budget);
            if f.horizon() == horizon {
                return f;
            }
        }
    }

    /// Searches in a table of so many bytes: the answer is this first clip and
    /// this number of states, or 15 if there is no room, and both buffers are as
    /// they have to be.
    fn search_agrees(f: &Formula, clip: &Option<Vec<u8>>, states: usize, table: usize) {
        let mut after = vec![9; table];
        let mut witness = vec![9; f.horizon() + 1];
        let answer = search(&write(f), &mut after, &mut witness);
        let (expected, frames) = match clip {
            _ if table < states * RECORD => {
                let (number, place) = (15, 0);
                (Err(Refusal { number, place }), &[][..])
            }
            Some(clip) => {
                let length = clip.len();
                (Ok(Answer::Met { length, states }), &clip[..])
            }
            None => (Ok(Answer::None { states }), &[][..]),
        };
        assert_eq!(answer, expected, "{f:?}");
        assert!(after.iter().all(|&byte| byte == 0), "{f:?}");
        let (first, left) = witness.split_at(frames.len());
        assert_eq!(first, frames, "{f:?}");
        assert!(left.iter().all(|&byte| byte == 9), "{f:?}");
    }

    #[test]
    fn clips_come_in_their_order() {
        let all = |bytes: &[u8], frames| clips(bytes, frames).collect::<Vec<_>>();
        assert_eq!(all(&[0, 4], 0), [vec![]]);
        assert_eq!(all(&[0, 4], 1), [[0], [4]]);
        assert_eq!(all(&[0, 4], 2), [[0, 0], [4, 0], [0, 4], [4, 4]]);
        assert_eq!(all(&[0], 3), [[0, 0, 0]]);
        let rise = |first: &[u8], second: &[u8]| first.iter().rev().lt(second.iter().rev());
        let three = all(&[0, 1, 2, 3], 3);
        assert!(three.windows(2).all(|two| rise(&two[0], &two[1])));
        assert_eq!(three.len(), 64);
    }

    #[test]
    fn the_search_finds_what_every_clip_says() {
        let mut random = Random::new(1);
        let mut met = [0; 8];
        let mut none = 0;
        let mut most = 0;
        for _ in 0..3_000 {
            let f = tiny_formula(&mut random);
            // No first clip has a flag that the formula does not name: without it
            // the clip says the same and comes before.
            let bytes = bytes_of_flags(&f);
            let clip = first_clip(&f, &bytes);
            let states = count_states(&f, &bytes, clip.as_ref().map(Vec::len));
            let explored = explore(&emit(&f), &bytes, usize::MAX);
            assert_eq!((&explored.clip, explored.states), (&clip, states), "{f:?}");
            if clip.is_none() {
                // Clips of at most the horizon and one frame reach all states.
                let short = count_states(&f, &bytes, Some(f.horizon() + 2));
                assert_eq!(short, states, "{f:?}");
            }

            most = most.max(states);
            match &clip {
                Some(clip) => met[clip.len().min(7)] += 1,
                None => none += 1,
            }

            // A table of just so many records, of a byte less, and of any length.
            let enough = states * RECORD;
            for table in [enough, enough - 1, random.between(0, 2 * enough)] {
                search_agrees(&f, &clip, states, table);
            }
        }
        assert!(met[1..].iter().all(|&count| count > 10), "{met:?}");
        assert!(none > 800 && most > 100, "{none}, {most}");
    }

    #[test]
    fn the_search_finds_what_every_clip_of_all_bytes_says() {
        let all: Vec<u8> = (0..=255).collect();
        let mut random = Random::new(2);
        // No clip, and clips of one and of two frames.
        let mut lengths = [0; 3];
        let mut most = 0;
        for turn in 0..60 {
            let f = short_formula(&mut random, turn % 2);
            let clip = first_clip(&f, &all);
            // Without a clip, those of at most the horizon and one frame reach all
            // states: so many frames decide every register.
            let frames = clip.as_ref().map_or(f.horizon() + 2, Vec::len);
            let states = count_states(&f, &all, Some(frames));
            for bytes in [&all, &bytes_of_flags(&f)] {
                let explored = explore(&emit(&f), bytes, usize::MAX);
                assert_eq!((&explored.clip, explored.states), (&clip, states), "{f:?}");
            }
            let enough = states * RECORD;
            for table in [enough, enough - 1] {
                search_agrees(&f, &clip, states, table);
            }

            lengths[clip.map_or(0, |clip| clip.len())] += 1;
            most = most.max(states);
        }
        assert!(lengths.iter().all(|&count| count > 8), "{lengths:?}");
        assert!(most >= 4, "{most}");
    }
}
