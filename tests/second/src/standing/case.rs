//! A case for the program that prints a rule's standing: `standing INPUT`. The answer
//! is its text.

use super::cases;
use super::text;
use crate::entry;
use crate::text::{bytes_of_words, line_of_text, words_of_bytes};

/// The bytes that the program may read.
#[derive(Clone, Debug, PartialEq, Eq)]
pub struct Standing {
    pub input: Vec<u8>,
}

impl entry::Case for Standing {
    const VERBS: &'static [&'static str] = &["standing"];

    fn of_parts(_: &str, parts: &[&str]) -> Result<Option<Standing>, String> {
        let [input] = parts else {
            return Ok(None);
        };
        let input = bytes_of_words(input)?;
        Ok(Some(Standing { input }))
    }

    fn parts(&self) -> (&'static str, Vec<String>) {
        ("standing", vec![words_of_bytes(&self.input)])
    }

    fn answer(&self) -> String {
        line_of_text(&text(&self.input))
    }

    fn cases(seed: u64) -> Vec<Standing> {
        let inputs = cases::inputs(seed).into_iter();
        inputs.map(|input| Standing { input }).collect()
    }
}

#[cfg(test)]
mod tests {
    use super::*;
    use crate::entry::tests::{answer_to, case, no_cases, read_back};

    #[test]
    fn lines_say_cases() {
        let input = vec![0x12, 0];
        assert_eq!(case::<Standing>("standing 12 00"), Standing { input });
        read_back::<Standing>(&["standing", "standing 10*1100"]);
        no_cases::<Standing>(&["standing 1", "standing 10 | 10"]);
    }

    #[test]
    fn answers_as_lines() {
        assert_eq!(
            answer_to("standing 12 00 32 02 04"),
            "rule 5 bytes 2 items / horizon 4 / met 3 frames 4 states / 00 00 01"
        );
        assert_eq!(answer_to("standing"), "refused 1 at 0");
    }
}
