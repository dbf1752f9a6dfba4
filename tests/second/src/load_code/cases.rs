//! The list of code to load.

use crate::instruction::{write, Instruction};
use crate::limits::{LARGEST_WIDTH, MOST_DISTANCES, MOST_INSTRUCTIONS, MOST_REACHES};
use crate::random::code::{
    code_of_instructions, code_of_timed, damaged_code, distances_of_sum, good_code,
    random_code_bytes, LEAST_LATERS,
};
use crate::random::{generator, Random};
use crate::text::bytes;

/// The code of document 01's samples and of the readings of it.
const SAMPLES: [&str; 16] = [
    "02 00 02 01 04 00 01 02 05 02 01",
    "02 00 01 04 01 00 02 05 02 02",
    "01",
    "02 07",
    "01 03 00 00",
    "01 05 01 00",
    "01 05 00 00",
    "01 05 00 ff 01",
    "01 05 00 80 02",
    "01 04 00 00 ff 01",
    "01 04 00 00 80 02",
    "01 05 00 ff 01 05 00 01",
    "01 05 00 ff 01 05 00 02",
    "02 08",
    "10",
    "02 80 00",
];

/// Good code with every instruction in it, one of them with two-byte numbers.
const EVERY_CODE: &str = "01 02 07 03 00 01 04 01 00 ff 01 05 03 80 01 05 00 80 01";

/// Forms of a number: each good one at an edge, and each kind of bad one.
const FORMS: [&str; 20] = [
    "", "00", "01", "02", "07", "08", "7f", "80", "ff", "80 00", "ff 00", "80 01", "81 01",
    "ff 01", "80 02", "ff 7f", "80 80", "ff ff", "80 80 00", "ff ff 01",
];

/// Instructions that go wrong in each way, or that only a limit can refuse.
const TAILS: [&str; 26] = [
    "01",
    "02 00",
    "02 07",
    "03 00 00",
    "03 00 80 01",
    "04 00 00 00",
    "04 00 00 ff 01",
    "05 00 01",
    "05 00 02",
    "05 00 ff 01",
    "00",
    "06",
    "10",
    "02",
    "02 80",
    "02 80 00",
    "02 80 80",
    "02 08",
    "03 00",
    "03 ff 7f 00",
    "03 00 ff 7f",
    "04 00 00 80 02",
    "04 ff 7f 00 80 02",
    "05 00 00",
    "05 ff 7f 00",
    "05 00 80 02",
];

/// The code to load.
pub fn codes(seed: u64) -> Vec<Vec<u8>> {
    let mut codes: Vec<Vec<u8>> = vec![vec![]];
    codes.extend((0..=255).map(|byte| vec![byte]));
    for first in 1..=5 {
        codes.extend((0..=255).map(|second| vec![first, second]));
    }
    prefixes(&mut generator(seed, 101), &mut codes);
    changed_bytes(&mut generator(seed, 102), &mut codes);
    limits(&mut generator(seed, 103), &mut codes);
    number_forms(&mut codes);
    let mut random = generator(seed, 104);
    codes.extend((0..10_000).map(|_| write(&good_code(&mut random))));
    let mut random = generator(seed, 105);
    codes.extend((0..10_000).map(|_| damaged_code(&mut random)));
    let mut random = generator(seed, 106);
    codes.extend((0..10_000).map(|_| random_code_bytes(&mut random, 40)));
    codes.push(vec![0x01; 100_000]);
    codes
}

/// Every prefix of the samples and of some random code.
fn prefixes(random: &mut Random, out: &mut Vec<Vec<u8>>) {
    let mut codes: Vec<Vec<u8>> = SAMPLES.iter().map(|text| bytes(text)).collect();
    codes.push(bytes(EVERY_CODE));
    codes.extend((0..20).map(|_| write(&good_code(random))));
    for code in codes {
        out.extend((0..=code.len()).map(|length| code[..length].to_vec()));
    }
}

/// Every change of one byte in one code with every instruction, and in random
/// code of 1 to 6 instructions.
fn changed_bytes(random: &mut Random, out: &mut Vec<Vec<u8>>) {
    let mut codes = vec![bytes(EVERY_CODE)];
    codes.extend((0..24).map(|k| write(&code_of_instructions(random, 1 + k % 6))));
    for code in codes {
        for place in 0..code.len() {
            for byte in 0..=255 {
                let mut changed = code.clone();
                changed[place] = byte;
                out.push(changed);
            }
        }
    }
}

/// Code on either side of each limit, and one more instruction behind it.
fn limits(random: &mut Random, out: &mut Vec<Vec<u8>>) {
    let mut starts: Vec<Vec<u8>> = Vec::new();
    for count in MOST_INSTRUCTIONS - 2..=MOST_INSTRUCTIONS + 2 {
        starts.push(vec![0x01; count]);
        for _ in 0..20 {
            starts.push(write(&code_of_instructions(random, count)));
        }
    }
    for reaches in MOST_REACHES - 2..=MOST_REACHES + 2 {
        for _ in 0..20 {
            let sum = random.between(1, MOST_DISTANCES);
            let distances = distances_of_sum(random, 6, sum);
            starts.push(write(&code_of_timed(random, reaches, &distances)));
        }
    }
    for sum in MOST_DISTANCES - 3..=MOST_DISTANCES + 3 {
        for most in LEAST_LATERS..=16 {
            let reaches = random.between(0, MOST_REACHES);
            let distances = distances_of_sum(random, most, sum);
            starts.push(write(&code_of_timed(random, reaches, &distances)));
        }
        starts.push(write(&code_of_timed(random, 0, &vec![1; sum])));
    }
    for start in starts {
        for tail in TAILS {
            out.push([&start[..], &bytes(tail)].concat());
        }
        out.push(start);
    }
}

/// Numbers in all forms at each place of each instruction, behind no, one and
/// 130 others, and every operand, width and distance around the edges.
fn number_forms(out: &mut Vec<Vec<u8>>) {
    for before in [0, 1, 130] {
        let start = vec![0x01; before];
        for a in FORMS {
            out.push([&start[..], &[0x02], &bytes(a)].concat());
            for b in FORMS {
                let two = [bytes(a), bytes(b)].concat();
                out.push([&start[..], &[0x03], &two].concat());
                out.push([&start[..], &[0x05], &two].concat());
                out.push([&start[..], &[0x04], &two, &[0x00]].concat());
                out.push([&start[..], &[0x04, 0x00], &two].concat());
            }
        }
    }
    for count in [
        1,
        2,
        127,
        128,
        129,
        130,
        255,
        256,
        257,
        MOST_INSTRUCTIONS - 1,
    ] {
        let start = vec![Instruction::One; count];
        for operand in (0..4).chain(count - 1..count + 3).chain(125..132) {
            for tail in [
                Instruction::Nand { i: operand, j: 0 },
                Instruction::Nand { i: 0, j: operand },
                Instruction::Reach {
                    i: operand,
                    j: 0,
                    w: 3,
                },
                Instruction::Reach {
                    i: 0,
                    j: operand,
                    w: LARGEST_WIDTH,
                },
                Instruction::Later { i: operand, d: 9 },
            ] {
                out.push(write(&[&start[..], &[tail]].concat()));
            }
        }
    }
    for number in 0..=LARGEST_WIDTH + 45 {
        let w = number;
        let d = number;
        out.push(write(&[
            Instruction::One,
            Instruction::Reach { i: 0, j: 0, w },
        ]));
        out.push(write(&[Instruction::One, Instruction::Later { i: 0, d }]));
    }
}

#[cfg(test)]
mod tests {
    use crate::entry::tests::{a_seed_fixes_the_list, answers};
    use crate::load_code::case::LoadCode;

    #[test]
    fn a_seed_fixes_the_codes() {
        a_seed_fixes_the_list::<LoadCode>(90_000..130_000);
    }

    #[test]
    fn each_refusal_of_code_is_met_often() {
        let seen = answers::<LoadCode>();
        for number in [2, 3, 4, 5, 10, 11, 12] {
            assert!(seen[&format!("refused {number}")] > 500, "{seen:?}");
        }
        assert!(seen["refused 1"] > 0);
        assert!(seen["accepted"] > 10_000);
        assert_eq!(seen.len(), 9, "{seen:?}");
    }
}
