//! A case for loading a rule: `load RULE`.

use super::cases;
use super::load;
use crate::entry;
use crate::refusal::Refusal;
use crate::text::{bytes_of_words, words_of_bytes};

/// A rule to load.
#[derive(Clone, Debug, PartialEq, Eq)]
pub struct Load {
    pub rule: Vec<u8>,
}

impl entry::Case for Load {
    const VERBS: &'static [&'static str] = &["load"];

    fn of_parts(_: &str, parts: &[&str]) -> Result<Option<Load>, String> {
        let [rule] = parts else {
            return Ok(None);
        };
        let rule = bytes_of_words(rule)?;
        Ok(Some(Load { rule }))
    }

    fn parts(&self) -> (&'static str, Vec<String>) {
        ("load", vec![words_of_bytes(&self.rule)])
    }

    fn answer(&self) -> String {
        answer_line(load(&self.rule).map(|rule| (rule.items, rule.horizon)))
    }

    fn cases(seed: u64) -> Vec<Load> {
        let rules = cases::parts(seed).into_iter().flat_map(|part| part.rules);
        rules.map(|rule| Load { rule }).collect()
    }
}

/// What loading a rule answers, as a line without its end: `accepted ITEMS HORIZON`,
/// or the refusal.
pub fn answer_line(loaded: Result<(usize, usize), Refusal>) -> String {
    match loaded {
        Ok((items, horizon)) => format!("accepted {items} {horizon}"),
        Err(refusal) => refusal.to_string(),
    }
}

#[cfg(test)]
mod tests {
    use super::*;
    use crate::entry::tests::{answer_to, case, no_cases, read_back};

    #[test]
    fn lines_say_cases() {
        assert_eq!(case::<Load>("load # nothing"), Load { rule: vec![] });
        let rule = vec![0x12, 0];
        assert_eq!(case::<Load>("load 12 00"), Load { rule });
        read_back::<Load>(&["load", "load 12 00", "load 10 20*64"]);
        no_cases::<Load>(&["load 1", "load 10 | 11", "load-code 01"]);
    }

    #[test]
    fn answers_as_lines() {
        assert_eq!(answer_to("load 12 00 32 00 ff 01"), "accepted 2 255");
        assert_eq!(answer_to("load 10 10"), "refused 9 2");
    }
}
