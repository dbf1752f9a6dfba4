//! Repeatable random code, registers and clips: good code, code near each
//! limit, damaged code, and bytes that are no code at all.

use super::rule::good_formula;
use super::Random;
use crate::emit::emit;
use crate::instruction::{write, Instruction};
use crate::limits::{
    COUNTERS, DELAYS, LARGEST_DISTANCE, LARGEST_FLAG, LARGEST_WIDTH, MOST_DISTANCES,
    MOST_INSTRUCTIONS, MOST_REACHES,
};
use crate::machine::{counter_of, Registers};

/// How often each kind of instruction is chosen, in this order: ONE, FLAG,
/// NAND, REACH, LATER.
type Mixture = [usize; 5];

/// Mixtures: as an emitter has it, even, mostly timed, only REACH or only LATER
/// over flags, and no REACH or LATER at all.
const MIXTURES: [Mixture; 6] = [
    [1, 4, 8, 2, 2],
    [1, 1, 1, 1, 1],
    [0, 2, 2, 6, 6],
    [0, 1, 0, 3, 0],
    [0, 1, 0, 0, 3],
    [1, 2, 5, 0, 0],
];

/// What random code may still use up.
#[derive(Clone, Copy)]
struct Budget {
    reaches: usize,
    distances: usize,
}

/// What code may use by document 01.
const BUDGET: Budget = Budget {
    reaches: MOST_REACHES,
    distances: MOST_DISTANCES,
};

/// A number from 0 to 4: a kind by its weight.
fn weighed(random: &mut Random, mixture: &Mixture) -> usize {
    let mut left = random.below(mixture.iter().sum());
    let mut kind = 0;
    while left >= mixture[kind] {
        left -= mixture[kind];
        kind += 1;
    }
    kind
}

/// An instruction before `count`, which is not 0: a near one, an end, or any.
fn operand(random: &mut Random, count: usize) -> usize {
    match random.below(4) {
        0 | 1 => count - random.between(1, count.min(4)),
        2 => random.pick(&[0, count - 1, count / 2]),
        _ => random.below(count),
    }
}

/// A width: small, or near the places where its form or its standing changes,
/// or any.
fn width(random: &mut Random) -> usize {
    match random.below(3) {
        0 => random.below(6),
        1 => {
            let most = LARGEST_WIDTH;
            random.pick(&[0, 1, 2, 126, 127, 128, 129, most - 2, most - 1, most])
        }
        _ => random.between(0, LARGEST_WIDTH),
    }
}

/// A distance of at most `most`, which is not 0.
fn distance(random: &mut Random, most: usize) -> usize {
    let chosen = match random.below(6) {
        0..=3 => random.between(1, 6),
        4 => {
            let most = LARGEST_DISTANCE;
            random.pick(&[1, 2, 126, 127, 128, 129, most - 1, most])
        }
        _ => random.between(1, LARGEST_DISTANCE),
    };
    chosen.min(most)
}

/// A random instruction behind `count` others, within the budget.
fn instruction(
    random: &mut Random,
    count: usize,
    mixture: &Mixture,
    budget: &mut Budget,
) -> Instruction {
    if count > 0 {
        match weighed(random, mixture) {
            0 => return Instruction::One,
            2 => {
                let i = operand(random, count);
                // Half of them are N.
                let j = if random.once_in(2) {
                    i
                } else {
                    operand(random, count)
                };
                return Instruction::Nand { i, j };
            }
            3 if budget.reaches > 0 => {
                budget.reaches -= 1;
                return Instruction::Reach {
                    i: operand(random, count),
                    j: operand(random, count),
                    w: width(random),
                };
            }
            4 if budget.distances > 0 => {
                let d = distance(random, budget.distances.min(LARGEST_DISTANCE));
                budget.distances -= d;
                let i = operand(random, count);
                return Instruction::Later { i, d };
            }
            _ => {}
        }
    }
    if random.once_in(6) {
        return Instruction::One;
    }
    // Most flags are low ones, so that they meet again.
    let most = random.pick(&[1, 1, 2, LARGEST_FLAG]);
    Instruction::Flag {
        k: random.between(0, most),
    }
}

/// Random code of so many instructions by a mixture, within the budget.
fn mixed(
    random: &mut Random,
    count: usize,
    mixture: &Mixture,
    mut budget: Budget,
) -> Vec<Instruction> {
    (0..count)
        .map(|n| instruction(random, n, mixture, &mut budget))
        .collect()
}

/// Random code of so many instructions, within the other limits.
pub fn code_of_instructions(random: &mut Random, count: usize) -> Vec<Instruction> {
    let mixture = random.pick(&MIXTURES);
    mixed(random, count, &mixture, BUDGET)
}

/// Random code within all limits: mixed, or as it is emitted for a rule.
pub fn good_code(random: &mut Random) -> Vec<Instruction> {
    let count = match random.below(8) {
        0 | 1 => random.between(1, 4),
        2 | 3 => random.between(1, 12),
        4 => random.between(1, 60),
        5 => random.between(1, MOST_INSTRUCTIONS),
        6 => {
            let most = MOST_INSTRUCTIONS;
            random.pick(&[127, 128, 129, 130, 131, 255, 256, 257, most - 1, most])
        }
        _ => return emit(&good_formula(random)),
    };
    code_of_instructions(random, count)
}

/// Random code with exactly so many REACH, and with LATER of exactly these
/// distances.
pub fn code_of_timed(random: &mut Random, reaches: usize, distances: &[usize]) -> Vec<Instruction> {
    let none = Budget {
        reaches: 0,
        distances: 0,
    };
    let plain =
        |random: &mut Random, count| instruction(random, count, &MIXTURES[0], &mut { none });
    let mut code = vec![plain(random, 0)];
    let mut left = reaches;
    let mut distances = distances.iter();
    let mut more = distances.len();
    while left + more > 0 {
        let count = code.len();
        if random.once_in(3) {
            code.push(plain(random, count));
        } else if random.below(left + more) < left {
            left -= 1;
            code.push(Instruction::Reach {
                i: operand(random, count),
                j: operand(random, count),
                w: width(random),
            });
        } else {
            more -= 1;
            code.push(Instruction::Later {
                i: operand(random, count),
                d: *distances.next().expect("a distance is left"),
            });
        }
    }
    code
}

/// So many distances at least add up to the largest sum, and a little more.
pub const LEAST_LATERS: usize = (MOST_DISTANCES + 3).div_ceil(LARGEST_DISTANCE);

/// Distances from 1 to the largest, at most so many, that add up to `sum`,
/// which is not 0.
pub fn distances_of_sum(random: &mut Random, most: usize, sum: usize) -> Vec<usize> {
    let mut distances = Vec::new();
    let mut left = sum;
    while left > 0 {
        let rest = (most - distances.len()).max(1) - 1;
        // What the distances behind this one can take at most.
        let least = left.saturating_sub(rest * LARGEST_DISTANCE).max(1);
        assert!(least <= LARGEST_DISTANCE, "{most} distances of sum {sum}");
        let d = random.between(least, left.min(LARGEST_DISTANCE));
        distances.push(d);
        left -= d;
    }
    distances
}

/// Random code near one of the limits, on either side of it.
pub fn edge_code(random: &mut Random) -> Vec<Instruction> {
    match random.below(3) {
        0 => {
            let count = random.between(MOST_INSTRUCTIONS - 1, MOST_INSTRUCTIONS + 2);
            code_of_instructions(random, count)
        }
        1 => {
            let reaches = random.between(MOST_REACHES - 1, MOST_REACHES + 2);
            let sum = random.between(1, MOST_DISTANCES);
            let distances = distances_of_sum(random, 8, sum);
            code_of_timed(random, reaches, &distances)
        }
        _ => {
            let reaches = random.between(0, MOST_REACHES);
            let sum = random.between(MOST_DISTANCES - 2, MOST_DISTANCES + 2);
            let most = random.between(LEAST_LATERS, 12);
            let distances = distances_of_sum(random, most, sum);
            code_of_timed(random, reaches, &distances)
        }
    }
}

/// A byte that may stand in code: a code byte, a small number, one of a
/// number's edges, or any.
fn likely_byte(random: &mut Random) -> u8 {
    match random.below(8) {
        0..=3 => random.between(1, 5) as u8,
        4 | 5 => random.below(9) as u8,
        6 => random.pick(&[0x00, 0x01, 0x02, 0x7f, 0x80, 0x81, 0xfe, 0xff]),
        _ => random.byte(),
    }
}

/// Does one damage to code: a byte changed, inserted, doubled or removed, a
/// cut, or other code joined on.
fn damage(random: &mut Random, bytes: &mut Vec<u8>) {
    match random.below(6) {
        0 if !bytes.is_empty() => {
            let at = random.below(bytes.len());
            bytes[at] = if random.once_in(2) {
                likely_byte(random)
            } else {
                random.byte()
            };
        }
        1 => {
            let at = random.between(0, bytes.len());
            let byte = likely_byte(random);
            bytes.insert(at, byte);
        }
        2 if !bytes.is_empty() => {
            let at = random.below(bytes.len());
            bytes.insert(at, bytes[at]);
        }
        3 if !bytes.is_empty() => {
            let at = random.below(bytes.len());
            bytes.remove(at);
        }
        4 => {
            let length = random.between(0, bytes.len());
            bytes.truncate(length);
        }
        _ => bytes.extend(write(&good_code(random))),
    }
}

/// The bytes of good code, or of code near a limit, with one to three damages.
pub fn damaged_code(random: &mut Random) -> Vec<u8> {
    let mut bytes = write(&if random.once_in(4) {
        edge_code(random)
    } else {
        good_code(random)
    });
    let times = random.pick(&[1, 1, 1, 2, 3]);
    for _ in 0..times {
        damage(random, &mut bytes);
    }
    bytes
}

/// Up to so many random bytes. Half of the strings start with a few ONE, so
/// that more of the instructions behind them are reached.
pub fn random_code_bytes(random: &mut Random, most: usize) -> Vec<u8> {
    let length = random.between(0, most);
    let mut bytes = Vec::new();
    if random.once_in(2) {
        bytes.resize(random.below(5), 0x01);
    }
    while bytes.len() < length {
        bytes.push(likely_byte(random));
    }
    bytes.truncate(length);
    bytes
}

/// The bytes of code of any sort: mostly good, else near a limit or damaged.
pub fn any_code(random: &mut Random) -> Vec<u8> {
    match random.below(10) {
        0 => damaged_code(random),
        1 => write(&edge_code(random)),
        _ => write(&good_code(random)),
    }
}

/// Random registers for some code: counters at 0, 1, around 256, at the largest
/// number, near the widths of the code, or any, by their kept numbers, and
/// delay bits of some density.
pub fn registers(random: &mut Random, code: &[Instruction]) -> Registers {
    let mut registers = Registers::fresh();
    let widths: Vec<usize> = code
        .iter()
        .filter_map(|instruction| match instruction {
            Instruction::Reach { w, .. } => Some(*w),
            _ => None,
        })
        .collect();
    for n in 0..COUNTERS {
        let kept = match random.below(8) {
            0 | 1 => {
                let most = LARGEST_WIDTH;
                random.pick(&[0, 1, 2, most - 1, most, most + 1, most + 2, 65_534, 65_535])
            }
            2 => random.below(65_536),
            3 => random.below(LARGEST_WIDTH + 3),
            // A count is kept as one more: w - 1, w and w + 1, and two beside.
            _ => {
                let w = widths.get(n).copied().unwrap_or(0);
                (w + random.below(5)).saturating_sub(1)
            }
        };
        registers.counters[n] = counter_of(kept as u16);
    }
    let density = random.pick(&[0, 1, 8, 15, 16]);
    for n in 0..DELAYS {
        registers.delays[n] = random.below(16) < density;
    }
    registers
}

/// A random clip of so many frames: any bytes, few flags, many flags, or frames
/// that stay the same for a while.
pub fn clip(random: &mut Random, frames: usize) -> Vec<u8> {
    let kind = random.below(6);
    let mut frame = random.byte();
    (0..frames)
        .map(|_| {
            match kind {
                0 => frame = random.byte(),
                1 => frame = random.byte() & random.byte() & random.byte(),
                2 => frame = random.byte() | random.byte() | random.byte(),
                3 => frame = random.below(4) as u8,
                // One flag changes now and then.
                4 if random.once_in(5) => frame ^= 1 << random.below(8),
                5 if random.once_in(60) => frame ^= 1 << random.below(3),
                _ => {}
            }
            frame
        })
        .collect()
}

#[cfg(test)]
mod tests {
    use super::*;
    use crate::instruction::{distances, reaches};
    use crate::load_code::load_code;
    use crate::machine::kept;

    /// The refusal's number, or 0 for accepted code.
    fn number(bytes: &[u8]) -> u8 {
        load_code(bytes).map_or_else(|refusal| refusal.number, |_| 0)
    }

    #[test]
    fn good_code_is_accepted_and_reaches_the_limits() {
        let mut random = Random::new(1);
        let mut most = (0, 0, 0, 0);
        for _ in 0..20_000 {
            let code = good_code(&mut random);
            assert_eq!(load_code(&write(&code)).as_ref(), Ok(&code));
            most.0 = most.0.max(code.len());
            most.1 = most.1.max(reaches(&code));
            most.2 = most.2.max(distances(&code));
            let operands = code.iter().flat_map(|instruction| instruction.operands());
            most.3 = most.3.max(operands.max().unwrap_or(0));
        }
        assert_eq!(
            most,
            (
                MOST_INSTRUCTIONS,
                MOST_REACHES,
                MOST_DISTANCES,
                MOST_INSTRUCTIONS - 2
            )
        );
    }

    #[test]
    fn the_limits_are_met_exactly() {
        let mut random = Random::new(2);
        for _ in 0..500 {
            let code = code_of_instructions(&mut random, MOST_INSTRUCTIONS);
            assert_eq!(number(&write(&code)), 0);
            let code = code_of_instructions(&mut random, MOST_INSTRUCTIONS + 1);
            assert_eq!(number(&write(&code)), 12);
            for (reaches, sum, expected) in [
                (MOST_REACHES, MOST_DISTANCES, 0),
                (MOST_REACHES + 1, MOST_DISTANCES, 12),
                (MOST_REACHES, MOST_DISTANCES + 1, 12),
            ] {
                let most = random.between(LEAST_LATERS, 20);
                let distances = distances_of_sum(&mut random, most, sum);
                assert!(distances.len() <= most);
                assert_eq!(distances.iter().sum::<usize>(), sum);
                let code = code_of_timed(&mut random, reaches, &distances);
                assert_eq!(number(&write(&code)), expected);
            }
        }
    }

    #[test]
    fn damage_leads_to_every_refusal_of_code() {
        let mut random = Random::new(3);
        let mut seen = [0; 13];
        for _ in 0..20_000 {
            seen[number(&damaged_code(&mut random)) as usize] += 1;
        }
        for number in [0, 1, 2, 3, 4, 5, 10, 11, 12] {
            assert!(seen[number] > 0, "{number}: {seen:?}");
        }
        assert_eq!(seen[6..10], [0; 4]);
    }

    #[test]
    fn random_registers_have_every_edge() {
        let mut random = Random::new(4);
        let code = [Instruction::One, Instruction::Reach { i: 0, j: 0, w: 100 }];
        let mut seen = vec![false; 65_536];
        let mut ones = 0;
        for _ in 0..2_000 {
            let registers = registers(&mut random, &code);
            seen[kept(registers.counters[0]) as usize] = true;
            ones += registers.delays.iter().filter(|bit| **bit).count();
        }
        for number in [0, 1, 99, 100, 101, 102, 103, 255, 256, 257, 65_535] {
            assert!(seen[number], "{number}");
        }
        // About half of the bits.
        let share = ones * 100 / (2_000 * DELAYS);
        assert!((40..60).contains(&share), "{share}");
    }

    #[test]
    fn clips_have_their_length() {
        let mut random = Random::new(5);
        for frames in 0..300 {
            assert_eq!(clip(&mut random, frames).len(), frames);
        }
    }
}
