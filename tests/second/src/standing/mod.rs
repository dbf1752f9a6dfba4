//! The text of the small program that prints a rule's standing, exactly as document
//! 01 words it under "Program".

pub mod case;
pub mod cases;

use crate::limits::LARGEST_HORIZON;
use crate::load::load;
use crate::refusal::Refusal;
use crate::search::{search, Answer};

/// The program reads at most so many bytes.
const MOST_READ: usize = 1_024;
/// The length of the table that it lends.
pub const TABLE: usize = 65_536;
/// The length of the witness buffer that it lends, the largest that 14 can ask.
const WITNESS: usize = LARGEST_HORIZON + 1;

/// The whole text for some input.
pub fn text(input: &[u8]) -> String {
    let refused = |Refusal { number, place }| format!("refused {number} at {place}\n");
    let rule = &input[..input.len().min(MOST_READ)];
    answered(rule).unwrap_or_else(refused)
}

/// The text where neither the rule nor the search is refused.
fn answered(rule: &[u8]) -> Result<String, Refusal> {
    let loaded = load(rule)?;
    let mut witness = vec![0; WITNESS];
    let found = match search(rule, &mut vec![0; TABLE], &mut witness)? {
        Answer::Met { length, states } => {
            let frames = words_of_frames(&witness[..length]);
            format!("met {length} frames {states} states\n{frames}")
        }
        Answer::None { states } => format!("none {states} states"),
    };
    let (bytes, items, horizon) = (rule.len(), loaded.items, loaded.horizon);
    Ok(format!(
        "rule {bytes} bytes {items} items\nhorizon {horizon}\n{found}\n"
    ))
}

/// The frames, two lower-case hex digits each.
fn words_of_frames(clip: &[u8]) -> String {
    let words: Vec<String> = clip.iter().map(|frame| format!("{frame:02x}")).collect();
    words.join(" ")
}

#[cfg(test)]
mod tests {
    use super::*;
    use crate::limits::{MOST_ITEMS, MOST_TIMED, RECORD};
    use crate::text::bytes;

    /// Asserts the lines for a rule, each of which ends.
    fn says(rule: &str, lines: &[&str]) {
        let text = text(&bytes(rule));
        assert_eq!(text, lines.join("\n") + "\n", "{rule}");
    }

    #[test]
    fn the_sample_of_01() {
        says(
            "12 00 32 02 04",
            &[
                "rule 5 bytes 2 items",
                "horizon 4",
                "met 3 frames 4 states",
                "00 00 01",
            ],
        );
        says(
            "12 00 33 00 02 12 00 20 32 01 01 21",
            &["rule 12 bytes 6 items", "horizon 2", "none 4 states"],
        );
        says("12 08", &["refused 5 at 0"]);
    }

    #[test]
    fn the_words_stay_the_same_for_a_count_of_1() {
        says(
            "10",
            &[
                "rule 1 bytes 1 items",
                "horizon 0",
                "met 1 frames 1 states",
                "00",
            ],
        );
        says(
            "11",
            &["rule 1 bytes 1 items", "horizon 0", "none 1 states"],
        );
    }

    #[test]
    fn digits_are_lower_case() {
        says(
            "12 07 12 05 21 12 03 21 12 01 21",
            &[
                "rule 11 bytes 7 items",
                "horizon 0",
                "met 1 frames 1 states",
                "aa",
            ],
        );
    }

    #[test]
    fn nothing_but_a_refusal_is_said_of_one() {
        says("", &["refused 1 at 0"]);
        says("10 10", &["refused 9 at 2"]);
        says("12 00 32 04 02", &["refused 6 at 2"]);
        let long = format!("10 20*{}", MOST_READ - 1);
        says(&long, &[&format!("refused 8 at {MOST_ITEMS}")]);
        // All values of so many delay bits: as many as there is room for, and of one more.
        let bits = (TABLE / RECORD).ilog2();
        let rule = |bits| format!("12 00 32 {bits:02x} {bits:02x} 11 21");
        let states = format!("none {} states", 1 << bits);
        let horizon = format!("horizon {bits}");
        says(&rule(bits), &["rule 7 bytes 4 items", &horizon, &states]);
        says(&rule(bits + 1), &["refused 15 at 0"]);
    }

    #[test]
    fn the_witness_buffer_is_long_enough_for_every_horizon() {
        let rule = "12 00".to_string() + &" 32 00 ff 01".repeat(MOST_TIMED);
        let (bytes, items) = (2 + 4 * MOST_TIMED, 1 + MOST_TIMED);
        says(
            &rule,
            &[
                &format!("rule {bytes} bytes {items} items"),
                &format!("horizon {LARGEST_HORIZON}"),
                "met 1 frames 1 states",
                "01",
            ],
        );
    }

    #[test]
    fn bytes_past_the_most_that_are_read_change_nothing() {
        // However long its items are, one too many ends long before.
        let long = [0x32, 0x80, 0x01, 0xff, 0x01].repeat(300);
        for start in [&[0x10][..], &[0x12, 0x07], &[0x10, 0x20]] {
            let rule = [start, &long].concat();
            assert_eq!(text(&rule), text(&rule[..MOST_READ]));
        }
    }
}
