//! The list of runs.

use super::case::Run;
use crate::instruction::write;
use crate::limits::{MOST_FRAMES, MOST_INSTRUCTIONS};
use crate::random::code::{any_code, clip, code_of_instructions, edge_code, good_code};
use crate::random::{any_bytes, generator, Random};

/// Runs over clips of 0 to 300 frames and of the largest sizes.
pub fn runs(seed: u64) -> Vec<Run> {
    let mut random = generator(seed, 301);
    let mut out = Vec::new();
    for _ in 0..12_000 {
        let frames = match random.below(8) {
            0 => random.below(4),
            1..=5 => random.between(1, 40),
            _ => random.between(1, 300),
        };
        let code = any_code(&mut random);
        out.push(run_case(&mut random, code, frames));
    }
    let mut random = generator(seed, 302);
    for frames in [
        MOST_FRAMES - 1,
        MOST_FRAMES,
        MOST_FRAMES,
        MOST_FRAMES,
        MOST_FRAMES,
        MOST_FRAMES + 1,
        MOST_FRAMES + 1,
        MOST_FRAMES + 2,
        100_000,
    ] {
        let code = write(&code_of_instructions(&mut random, 30));
        out.push(run_case(&mut random, code, frames));
    }
    // What is refused first, at the largest clip and around it.
    for frames in [0, 1, MOST_FRAMES, MOST_FRAMES + 1] {
        for room in [0, frames.saturating_sub(1), frames] {
            for code in [vec![], vec![0x00], write(&good_code(&mut random))] {
                out.push(Run {
                    code,
                    clip: clip(&mut random, frames),
                    buffer: any_bytes(&mut random, room),
                });
            }
        }
    }
    // Good code of every sort at full length.
    let code = write(&code_of_instructions(&mut random, MOST_INSTRUCTIONS));
    out.push(run_case(&mut random, code, MOST_FRAMES));
    for _ in 0..4 {
        let code = write(&edge_code(&mut random));
        out.push(run_case(&mut random, code, MOST_FRAMES));
    }
    out
}

/// Code over a random clip, with a buffer of any bytes that is one byte short,
/// as long, or longer.
fn run_case(random: &mut Random, code: Vec<u8>, frames: usize) -> Run {
    let room = match random.below(8) {
        0 => frames.saturating_sub(1),
        1..=4 => frames,
        5 => frames + 1,
        6 => frames + random.below(40),
        _ => random.between(0, frames),
    };
    Run {
        code,
        clip: clip(random, frames),
        buffer: any_bytes(random, room),
    }
}

#[cfg(test)]
mod tests {
    use super::*;
    use crate::entry::tests::{a_seed_fixes_the_list, answers};
    use crate::entry::Case;

    #[test]
    fn a_seed_fixes_the_runs() {
        a_seed_fixes_the_list::<Run>(12_000..13_000);
    }

    #[test]
    fn runs_are_done_and_refused_in_each_way() {
        let seen = answers::<Run>();
        assert!(seen["done"] > 5_000, "{seen:?}");
        assert!(seen["refused 13"] > 100 && seen["refused 16"] > 500);
        assert_eq!(seen.len(), 11, "{seen:?}");
        // Verdicts are mixed: many clips have both.
        let both = |case: &&Run| {
            let line = case.answer();
            line.starts_with("done [") && line.contains("00") && line.contains("01")
        };
        assert!(runs(1).iter().take(2_000).filter(both).count() > 400);
    }
}
