//! The list of steps.

use super::case::Step;
use crate::instruction::{write, Instruction};
use crate::limits::{LARGEST_DISTANCE, LARGEST_WIDTH, MOST_DISTANCES, MOST_REACHES};
use crate::load_code::load_code;
use crate::machine::counter_of;
use crate::random::code::{any_code, registers};
use crate::random::{generator, Random};

/// Steps from any registers.
pub fn steps(seed: u64) -> Vec<Step> {
    let mut out = Vec::new();
    every_reach(&mut generator(seed, 201), &mut out);
    every_later(&mut generator(seed, 202), &mut out);
    let mut random = generator(seed, 203);
    for _ in 0..12_000 {
        let code = any_code(&mut random);
        let registers = Box::new(registers(
            &mut random,
            &load_code(&code).unwrap_or_default(),
        ));
        let frame = random.byte();
        out.push(Step {
            code,
            frame,
            registers,
        });
    }
    out
}

/// One REACH at every edge of its width, its counter and its two bits, as the
/// first and as the last of as many as may be.
fn every_reach(random: &mut Random, out: &mut Vec<Step>) {
    for w in [0, 1, 2, 127, 128, LARGEST_WIDTH - 1, LARGEST_WIDTH] {
        let near = w.saturating_sub(1)..w + 4;
        let numbers = near.chain([0, 1, 2, 255, 256, 257, 258, 32_768, 65_534, 65_535]);
        for number in numbers {
            for frame in 0..4 {
                for before in [0, MOST_REACHES - 1] {
                    let mut code = vec![Instruction::Flag { k: 0 }, Instruction::Flag { k: 1 }];
                    for _ in 0..before {
                        code.push(Instruction::Reach { i: 1, j: 0, w });
                    }
                    code.push(Instruction::Reach { i: 0, j: 1, w });
                    let mut registers = Box::new(registers(random, &code));
                    registers.counters[before] = counter_of(number as u16);
                    out.push(Step {
                        code: write(&code),
                        frame,
                        registers,
                    });
                }
            }
        }
    }
}

/// One LATER of every distance, with none or others before and behind it as
/// far as the delay bits last.
fn every_later(random: &mut Random, out: &mut Vec<Step>) {
    for d in 1..=LARGEST_DISTANCE {
        for others in 0..3 {
            let mut code = vec![Instruction::Flag { k: 0 }, Instruction::Flag { k: 1 }];
            let room = MOST_DISTANCES - d;
            let before = (others > 0 && room > 0).then(|| random.between(1, room));
            let behind = room - before.unwrap_or(0);
            if let Some(d) = before {
                code.push(Instruction::Later { i: 0, d });
            }
            code.push(Instruction::Later { i: 1, d });
            if others > 1 && behind > 0 {
                code.push(Instruction::Later { i: 2, d: behind });
            }
            let registers = Box::new(registers(random, &code));
            out.push(Step {
                code: write(&code),
                frame: random.below(4) as u8,
                registers,
            });
        }
    }
}

#[cfg(test)]
mod tests {
    use super::*;
    use crate::entry::tests::{a_seed_fixes_the_list, answers};

    #[test]
    fn a_seed_fixes_the_steps() {
        a_seed_fixes_the_list::<Step>(12_000..20_000);
    }

    #[test]
    fn steps_answer_both_bits_and_each_refusal() {
        let seen = answers::<Step>();
        assert!(seen["bit 0"] > 2_000 && seen["bit 1"] > 2_000, "{seen:?}");
        assert_eq!(seen.len(), 10, "{seen:?}");
    }
}
