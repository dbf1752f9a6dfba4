//! A run of code over a clip. It needs no registers, as it remembers every bit of
//! every frame. So it and the steps say the same thing twice.

pub mod case;
pub mod cases;

use crate::instruction::Instruction;
use crate::limits::MOST_FRAMES;
use crate::load_code::load_code;
use crate::machine::{has_flag, reach};
use crate::refusal::Refusal;

/// The outputs of accepted code for the frames of a clip, in frame order.
pub fn outputs(code: &[Instruction], clip: &[u8]) -> Vec<bool> {
    // The bits of each frame read so far, and each instruction's counter.
    let mut frames: Vec<Vec<bool>> = Vec::new();
    let mut counters: Vec<Option<u32>> = vec![None; code.len()];
    for &frame in clip.iter().rev() {
        let mut bits: Vec<bool> = Vec::new();
        for (n, instruction) in code.iter().enumerate() {
            let bit = match *instruction {
                Instruction::One => true,
                Instruction::Flag { k } => has_flag(frame, k),
                Instruction::Nand { i, j } => !(bits[i] && bits[j]),
                Instruction::Reach { i, j, w } => {
                    counters[n] = reach(counters[n], bits[i], bits[j], w);
                    counters[n].is_some()
                }
                Instruction::Later { i, d } => frames.len() >= d && frames[frames.len() - d][i],
            };
            bits.push(bit);
        }
        frames.push(bits);
    }
    let output = |bits: &Vec<bool>| *bits.last().expect("code has an instruction");
    frames.iter().rev().map(output).collect()
}

/// Writes a bit for each frame of a clip: 13, then 16. It writes one byte a frame
/// from the buffer's first byte on, and nothing if it refuses.
pub fn write_bits(
    clip: &[u8],
    buffer: &mut [u8],
    bits: impl FnOnce() -> Vec<bool>,
) -> Result<(), Refusal> {
    let refuse = |number| Refusal { number, place: 0 };
    if clip.is_empty() || clip.len() > MOST_FRAMES {
        return Err(refuse(13));
    }
    if buffer.len() < clip.len() {
        return Err(refuse(16));
    }
    for (place, bit) in bits().into_iter().enumerate() {
        buffer[place] = u8::from(bit);
    }
    Ok(())
}

/// A run: code, then 13, then 16. It writes one byte a frame from the buffer's
/// first byte on, and nothing if it refuses.
pub fn run(code: &[u8], clip: &[u8], buffer: &mut [u8]) -> Result<(), Refusal> {
    let code = load_code(code)?;
    write_bits(clip, buffer, || outputs(&code, clip))
}

#[cfg(test)]
mod tests {
    use super::*;
    use crate::emit::emit;
    use crate::instruction::write;
    use crate::limits::{LARGEST_DISTANCE, LARGEST_WIDTH};
    use crate::machine::Registers;
    use crate::meaning::holds;
    use crate::random::code::{clip, good_code};
    use crate::random::rule::{formula, Budget};
    use crate::random::Random;
    use crate::text::bytes;

    fn code_of(text: &str) -> Vec<Instruction> {
        load_code(&bytes(text)).unwrap()
    }

    /// The outputs of the code of a text, as 0 and 1.
    fn bits(text: &str, clip: &[u8]) -> Vec<u8> {
        let outputs = outputs(&code_of(text), clip);
        outputs.into_iter().map(u8::from).collect()
    }

    /// The outputs by steps from fresh registers.
    fn by_steps(code: &[Instruction], clip: &[u8]) -> Vec<bool> {
        let mut registers = Registers::fresh();
        let mut outputs: Vec<bool> = clip
            .iter()
            .rev()
            .map(|&frame| registers.take(code, frame))
            .collect();
        outputs.reverse();
        outputs
    }

    #[test]
    fn the_sample_run_of_01() {
        let text = "02 00 02 01 04 00 01 02 05 02 01";
        assert_eq!(bits(text, &[0, 1, 2]), [1, 1, 0]);
        let mut buffer = [9; 5];
        let code = bytes(text);
        assert_eq!(run(&code, &[0, 1, 2], &mut buffer), Ok(()));
        assert_eq!(buffer, [1, 1, 0, 9, 9]);
    }

    #[test]
    fn one_flag_and_nand() {
        assert_eq!(bits("01", &[0, 255]), [1, 1]);
        for k in 0..8 {
            let text = format!("02 {k:02x}");
            for frame in 0..=255u8 {
                assert_eq!(bits(&text, &[frame]), [(frame >> k) & 1]);
            }
        }
        assert_eq!(bits("02 00 02 01 03 00 01", &[0, 1, 2, 3]), [1, 1, 1, 0]);
        assert_eq!(bits("02 00 03 00 00", &[0, 1]), [1, 0]);
    }

    #[test]
    fn the_last_instruction_is_the_output() {
        assert_eq!(bits("02 00 01", &[0, 1]), [1, 1]);
        assert_eq!(bits("01 02 00", &[0, 1]), [0, 1]);
    }

    #[test]
    fn a_reach_of_width_w_lasts_w_frames() {
        // Flag 0 is i, flag 1 is j: j once, in the last frame.
        for w in [0, 1, 2, 127, 128, LARGEST_WIDTH - 1, LARGEST_WIDTH] {
            let code = [
                Instruction::Flag { k: 0 },
                Instruction::Flag { k: 1 },
                Instruction::Reach { i: 0, j: 1, w },
            ];
            let mut clip = vec![1; 300];
            clip[299] = 2;
            let outputs = outputs(&code, &clip);
            for (place, verdict) in outputs.into_iter().enumerate() {
                assert_eq!(verdict, 299 - place <= w, "{w} {place}");
            }
        }
    }

    #[test]
    fn a_reach_says_what_lies_ahead() {
        // The bit at a frame is 1 if some place p of at most w has j, and each
        // place before p has i.
        let mut random = Random::new(1);
        for _ in 0..2_000 {
            let w = random.below(6);
            let code = [
                Instruction::Flag { k: 0 },
                Instruction::Flag { k: 1 },
                Instruction::Reach { i: 0, j: 1, w },
            ];
            let clip: Vec<u8> = (0..12).map(|_| random.pick(&[0, 1, 1, 1, 2])).collect();
            for (at, verdict) in outputs(&code, &clip).into_iter().enumerate() {
                let rest = &clip[at..];
                let met = (0..rest.len().min(w + 1))
                    .any(|p| rest[p] & 2 != 0 && rest[..p].iter().all(|frame| frame & 1 != 0));
                assert_eq!(verdict, met);
            }
        }
    }

    #[test]
    fn a_later_is_the_bit_of_d_frames_ago() {
        let mut random = Random::new(2);
        for d in 1..=LARGEST_DISTANCE {
            let code = [Instruction::Flag { k: 0 }, Instruction::Later { i: 0, d }];
            let clip: Vec<u8> = (0..300).map(|_| random.byte()).collect();
            for (at, verdict) in outputs(&code, &clip).into_iter().enumerate() {
                let expected = clip.get(at + d).is_some_and(|frame| frame % 2 == 1);
                assert_eq!(verdict, expected);
            }
        }
    }

    #[test]
    fn a_run_refuses_code_then_13_then_16() {
        let number = |code: &[u8], frames: usize, room: usize| {
            let mut buffer = vec![7; room];
            let clip = vec![0; frames];
            let result = run(code, &clip, &mut buffer);
            if let Err(refusal) = result {
                assert_eq!(refusal.place, 0);
                assert!(buffer.iter().all(|&byte| byte == 7));
            }
            result.map_or_else(|refusal| refusal.number, |()| 0)
        };
        assert_eq!(number(&[], 0, 0), 1);
        assert_eq!(number(&[0x00], MOST_FRAMES + 1, 0), 2);
        assert_eq!(number(&[0x01], 0, 0), 13);
        assert_eq!(number(&[0x01], 0, 5), 13);
        assert_eq!(number(&[0x01], MOST_FRAMES + 1, 0), 13);
        assert_eq!(number(&[0x01], MOST_FRAMES + 1, MOST_FRAMES), 13);
        assert_eq!(number(&[0x01], MOST_FRAMES + 1, MOST_FRAMES + 1), 13);
        assert_eq!(number(&[0x01], MOST_FRAMES, MOST_FRAMES - 1), 16);
        assert_eq!(number(&[0x01], MOST_FRAMES, MOST_FRAMES), 0);
        assert_eq!(number(&[0x01], 1, 0), 16);
        assert_eq!(number(&[0x01], 1, 1), 0);
        assert_eq!(number(&[0x01], 3, 9), 0);
    }

    #[test]
    fn the_run_and_the_steps_agree() {
        let mut random = Random::new(3);
        for _ in 0..2_000 {
            let code = good_code(&mut random);
            let frames = random.between(1, 300);
            let clip = clip(&mut random, frames);
            assert_eq!(outputs(&code, &clip), by_steps(&code, &clip));
        }
    }

    #[test]
    fn a_run_of_emitted_code_says_what_the_rule_means() {
        let mut random = Random::new(4);
        for _ in 0..5_000 {
            let mut budget = Budget {
                timed: 4,
                lower: 12,
                bound: 4,
                flag: 1,
            };
            let items = random.between(1, 9);
            let f = formula(&mut random, items, &mut budget);
            let clip: Vec<u8> = (0..12).map(|_| random.below(4) as u8).collect();
            let code = load_code(&write(&emit(&f))).unwrap();
            for (at, verdict) in outputs(&code, &clip).into_iter().enumerate() {
                assert_eq!(verdict, holds(&f, &clip, at), "{f:?}");
            }
        }
    }
}
