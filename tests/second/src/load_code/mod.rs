//! Loading sequencer code from its bytes.

pub mod case;
pub mod cases;

use crate::instruction::{distances, reaches, Instruction};
use crate::limits::{
    LARGEST_DISTANCE, LARGEST_FLAG, LARGEST_WIDTH, MOST_DISTANCES, MOST_INSTRUCTIONS, MOST_REACHES,
};
use crate::number;
use crate::refusal::Refusal;

/// Splits the first instruction off `bytes`, which hold at least one byte.
/// Gives the instruction and the bytes behind it, or the number of the
/// refusal: 2, 3 or 4.
fn split(bytes: &[u8]) -> Result<(Instruction, &[u8]), u8> {
    let code = bytes[0];
    let rest = &bytes[1..];
    match code {
        0x01 => Ok((Instruction::One, rest)),
        0x02 => {
            let (k, rest) = number::split(rest)?;
            Ok((Instruction::Flag { k }, rest))
        }
        0x03 => {
            let (i, rest) = number::split(rest)?;
            let (j, rest) = number::split(rest)?;
            Ok((Instruction::Nand { i, j }, rest))
        }
        0x04 => {
            let (i, rest) = number::split(rest)?;
            let (j, rest) = number::split(rest)?;
            let (w, rest) = number::split(rest)?;
            Ok((Instruction::Reach { i, j, w }, rest))
        }
        0x05 => {
            let (i, rest) = number::split(rest)?;
            let (d, rest) = number::split(rest)?;
            Ok((Instruction::Later { i, d }, rest))
        }
        _ => Err(2),
    }
}

/// Loads code, or says why not.
pub fn load_code(bytes: &[u8]) -> Result<Vec<Instruction>, Refusal> {
    if bytes.is_empty() {
        return Err(Refusal {
            number: 1,
            place: 0,
        });
    }

    let mut code: Vec<Instruction> = Vec::new();
    let mut rest = bytes;

    while !rest.is_empty() {
        let place = bytes.len() - rest.len();
        let refuse = |number| Refusal { number, place };

        // 2, 3, 4
        let (instruction, behind) = split(rest).map_err(refuse)?;

        // 5
        if let Instruction::Flag { k } = instruction {
            if k > LARGEST_FLAG {
                return Err(refuse(5));
            }
        }

        // 10
        let own = code.len();
        if instruction.operands().iter().any(|&operand| operand >= own) {
            return Err(refuse(10));
        }

        // 11
        if let Instruction::Reach { w, .. } = instruction {
            if w > LARGEST_WIDTH {
                return Err(refuse(11));
            }
        }
        if let Instruction::Later { d, .. } = instruction {
            if d == 0 || d > LARGEST_DISTANCE {
                return Err(refuse(11));
            }
        }

        // 12
        code.push(instruction);
        if code.len() > MOST_INSTRUCTIONS
            || reaches(&code) > MOST_REACHES
            || distances(&code) > MOST_DISTANCES
        {
            return Err(refuse(12));
        }

        rest = behind;
    }
    Ok(code)
}

#[cfg(test)]
mod tests {
    use super::*;
    use crate::entry::tests::answer_to;
    use crate::instruction::write;
    use crate::number;
    use crate::text::{bytes, words_of_bytes};

    /// What loading the code of a text answers.
    fn answer(text: &str) -> String {
        answer_to(&format!("load-code {text}"))
    }

    /// A text so many times, with spaces between.
    fn times(text: &str, count: usize) -> String {
        vec![text; count].join(" ")
    }

    #[test]
    fn instructions_as_01_lists_them() {
        let bytes = bytes("01 02 07 03 00 01 04 01 00 ff 01 05 03 80 01");
        let code = [
            Instruction::One,
            Instruction::Flag { k: 7 },
            Instruction::Nand { i: 0, j: 1 },
            Instruction::Reach { i: 1, j: 0, w: 255 },
            Instruction::Later { i: 3, d: 128 },
        ];
        assert_eq!(load_code(&bytes).unwrap(), code);
        assert_eq!(write(&code), bytes);
        assert_eq!((reaches(&code), distances(&code)), (1, 128));
    }

    #[test]
    fn samples_of_01() {
        // Rules `12 00 12 01 30 01 03` and `12 00 32 02 04` as code.
        assert_eq!(answer("02 00 02 01 04 00 01 02 05 02 01"), "accepted 4");
        assert_eq!(answer("02 00 01 04 01 00 02 05 02 02"), "accepted 4");
    }

    #[test]
    fn no_bytes_and_unknown_codes() {
        assert_eq!(answer(""), "refused 1 0");
        for byte in 0..=255u8 {
            let number = load_code(&[byte]).map_or_else(|refusal| refusal.number, |_| 0);
            let expected = match byte {
                0x01 => 0,
                0x02..=0x05 => 3,
                _ => 2,
            };
            assert_eq!(number, expected, "{byte}");
        }
        // The codes of rules are none of code.
        assert_eq!(answer("10"), "refused 2 0");
        assert_eq!(answer("01 12 00"), "refused 2 1");
    }

    #[test]
    fn numbers_are_judged_one_by_one() {
        assert_eq!(answer("02"), "refused 3 0");
        assert_eq!(answer("02 80"), "refused 3 0");
        assert_eq!(answer("02 80 00"), "refused 4 0");
        assert_eq!(answer("02 80 80"), "refused 4 0");
        assert_eq!(answer("01 03"), "refused 3 1");
        assert_eq!(answer("01 03 00"), "refused 3 1");
        assert_eq!(answer("01 03 80 00"), "refused 4 1");
        assert_eq!(answer("01 03 00 80"), "refused 3 1");
        assert_eq!(answer("01 03 00 80 00"), "refused 4 1");
        assert_eq!(answer("01 04 00 00"), "refused 3 1");
        assert_eq!(answer("01 04 00 00 ff"), "refused 3 1");
        assert_eq!(answer("01 04 00 00 ff 00"), "refused 4 1");
        assert_eq!(answer("01 04 00 00 ff ff"), "refused 4 1");
        assert_eq!(answer("01 05 00"), "refused 3 1");
        assert_eq!(answer("01 05 00 80 80"), "refused 4 1");
    }

    #[test]
    fn all_numbers_are_read_before_values_are_asked_about() {
        // The operand is out of range too, but the bytes end first.
        assert_eq!(answer("03 05"), "refused 3 0");
        assert_eq!(answer("04 05 05"), "refused 3 0");
        assert_eq!(answer("05 05 80 00"), "refused 4 0");
    }

    #[test]
    fn flags_are_0_to_7() {
        for k in 0..8 {
            assert_eq!(answer(&format!("02 {k:02x}")), "accepted 1");
        }
        assert_eq!(answer("02 08"), "refused 5 0");
        assert_eq!(answer("01 02 7f"), "refused 5 1");
        assert_eq!(answer("01 02 80 01"), "refused 5 1");
        assert_eq!(answer("01 02 ff 7f"), "refused 5 1");
    }

    #[test]
    fn operands_are_earlier_instructions() {
        for text in ["03 00 00", "04 00 00 00", "05 00 01"] {
            assert_eq!(answer(text), "refused 10 0");
            assert_eq!(answer(&format!("01 {text}")), "accepted 2");
        }
        assert_eq!(answer("01 03 01 00"), "refused 10 1");
        assert_eq!(answer("01 03 00 01"), "refused 10 1");
        assert_eq!(answer("01 04 01 00 00"), "refused 10 1");
        assert_eq!(answer("01 04 00 01 00"), "refused 10 1");
        assert_eq!(answer("01 05 01 01"), "refused 10 1");
        assert_eq!(answer("01 01 03 01 00 03 02 02"), "accepted 4");
        assert_eq!(answer("01 01 03 01 02"), "refused 10 2");
        assert_eq!(answer("01 03 ff 7f 00"), "refused 10 1");
        // Operands past 127 take two bytes.
        let long = times("01", 129);
        assert_eq!(answer(&format!("{long} 03 80 01 7f")), "accepted 130");
        assert_eq!(answer(&format!("{long} 03 81 01 7f")), "refused 10 129");
        assert_eq!(answer(&format!("{long} 05 81 01 01")), "refused 10 129");
    }

    #[test]
    fn operands_come_before_widths_and_distances() {
        assert_eq!(answer("01 05 01 00"), "refused 10 1");
        assert_eq!(answer("01 05 00 00"), "refused 11 1");
        assert_eq!(answer("01 05 01 80 02"), "refused 10 1");
        assert_eq!(answer("01 04 00 01 80 02"), "refused 10 1");
        assert_eq!(answer("01 04 00 00 80 02"), "refused 11 1");
    }

    #[test]
    fn widths_and_distances_at_their_edges() {
        assert_eq!(answer("01 04 00 00 00"), "accepted 2");
        assert_eq!(answer("01 04 00 00 ff 01"), "accepted 2");
        assert_eq!(answer("01 04 00 00 80 02"), "refused 11 1");
        assert_eq!(answer("01 04 00 00 ff 7f"), "refused 11 1");
        assert_eq!(answer("01 05 00 00"), "refused 11 1");
        assert_eq!(answer("01 05 00 01"), "accepted 2");
        assert_eq!(answer("01 05 00 ff 01"), "accepted 2");
        assert_eq!(answer("01 05 00 80 02"), "refused 11 1");
        assert_eq!(answer("01 05 00 ff 7f"), "refused 11 1");
    }

    #[test]
    fn as_many_instructions_as_may_be_and_not_more() {
        let good = format!("01*{MOST_INSTRUCTIONS}");
        let refused = |number| format!("refused {number} {MOST_INSTRUCTIONS}");
        assert_eq!(answer(&good), format!("accepted {MOST_INSTRUCTIONS}"));
        assert_eq!(answer(&format!("{good} 01")), refused(12));
        assert_eq!(answer(&format!("{good} 02 07")), refused(12));
        let mut last = Vec::new();
        number::write(MOST_INSTRUCTIONS - 1, &mut last);
        let last = words_of_bytes(&last);
        assert_eq!(answer(&format!("{good} 03 {last} {last}")), refused(12));
        // A faulty instruction behind the last one gives its own number.
        let mut own = Vec::new();
        number::write(MOST_INSTRUCTIONS, &mut own);
        let own = words_of_bytes(&own);
        assert_eq!(answer(&format!("{good} 00")), refused(2));
        assert_eq!(answer(&format!("{good} 02")), refused(3));
        assert_eq!(answer(&format!("{good} 02 80 00")), refused(4));
        assert_eq!(answer(&format!("{good} 02 08")), refused(5));
        assert_eq!(answer(&format!("{good} 03 {own} 00")), refused(10));
        assert_eq!(answer(&format!("{good} 04 00 00 80 02")), refused(11));
        assert_eq!(answer(&format!("{good} 05 00 00")), refused(11));
        // Nothing behind that one is looked at.
        assert_eq!(answer(&format!("{good} 01 00")), refused(12));
    }

    #[test]
    fn as_many_reaches_as_may_be_and_not_more() {
        let good = format!("01 {}", times("04 00 00 00", MOST_REACHES));
        let end = 1 + 4 * MOST_REACHES;
        let accepted = |more| format!("accepted {}", 1 + MOST_REACHES + more);
        let refused = |number, place| format!("refused {number} {place}");
        assert_eq!(answer(&good), accepted(0));
        assert_eq!(answer(&format!("{good} 01")), accepted(1));
        assert_eq!(answer(&format!("{good} 04 00 00 00")), refused(12, end));
        assert_eq!(answer(&format!("{good} 04 00 00 80 02")), refused(11, end));
        let own = MOST_REACHES + 1;
        assert_eq!(
            answer(&format!("{good} 04 00 {own:02x} 00")),
            refused(10, end)
        );
        assert_eq!(answer(&format!("{good} 04 00 00")), refused(3, end));
        let behind = format!("{good} 01 04 00 00 00 00");
        assert_eq!(answer(&behind), refused(12, end + 1));
    }

    #[test]
    fn distances_add_up_to_at_most_their_sum() {
        // As many of the largest as may be, and what is left; and twos.
        let largest = MOST_DISTANCES / LARGEST_DISTANCE;
        let left = MOST_DISTANCES - largest * LARGEST_DISTANCE;
        let before = format!("01 {}", times("05 00 ff 01", largest));
        let end = 1 + 4 * largest;
        let more = |d: usize| format!("{before} 05 00 {d:02x}");
        let refused = |number, place| format!("refused {number} {place}");
        assert_eq!(answer(&more(left)), format!("accepted {}", largest + 2));
        assert_eq!(answer(&more(left + 1)), refused(12, end));
        assert_eq!(
            answer(&format!("{} 05 00 01", more(left))),
            refused(12, end + 3)
        );
        let twos = format!("01 {}", times("05 00 02", MOST_DISTANCES / 2 - 1));
        let end_of_twos = 1 + 3 * (MOST_DISTANCES / 2 - 1);
        let accepted = format!("accepted {}", MOST_DISTANCES / 2 + 1);
        assert_eq!(answer(&format!("{twos} 05 00 02")), accepted);
        assert_eq!(
            answer(&format!("{twos} 05 00 03")),
            refused(12, end_of_twos)
        );
        // The distance itself is judged first.
        assert_eq!(answer(&more(0)), refused(11, end));
        assert_eq!(answer(&format!("{before} 05 00 80 02")), refused(11, end));
    }

    #[test]
    fn distances_of_one_take_as_many_instructions() {
        let ones = MOST_DISTANCES.min(MOST_INSTRUCTIONS - 1);
        let good = format!("01 {}", times("05 00 01", ones));
        assert_eq!(answer(&good), format!("accepted {}", ones + 1));
        let end = 1 + 3 * ones;
        assert_eq!(
            answer(&format!("{good} 05 00 01")),
            format!("refused 12 {end}")
        );
    }

    #[test]
    fn each_instruction_passes_all_its_checks_before_the_next() {
        assert_eq!(answer("02 08 00"), "refused 5 0");
        assert_eq!(answer("03 00 00 00"), "refused 10 0");
        assert_eq!(answer("01 05 00 00 02"), "refused 11 1");
    }
}
