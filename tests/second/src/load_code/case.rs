//! A case for loading code: `load-code CODE`.

use super::cases;
use super::load_code;
use crate::entry;
use crate::stream::Packed;
use crate::text::{bytes_of_words, words_of_bytes};

/// Code to load.
#[derive(Clone, Debug, PartialEq, Eq)]
pub struct LoadCode {
    pub code: Vec<u8>,
}

impl entry::Case for LoadCode {
    const VERBS: &'static [&'static str] = &["load-code"];

    fn of_parts(_: &str, parts: &[&str]) -> Result<Option<LoadCode>, String> {
        let [code] = parts else {
            return Ok(None);
        };
        let code = bytes_of_words(code)?;
        Ok(Some(LoadCode { code }))
    }

    fn parts(&self) -> (&'static str, Vec<String>) {
        ("load-code", vec![words_of_bytes(&self.code)])
    }

    /// `accepted INSTRUCTIONS`, or the refusal.
    fn answer(&self) -> String {
        match load_code(&self.code) {
            Ok(code) => format!("accepted {}", code.len()),
            Err(refusal) => refusal.to_string(),
        }
    }

    fn cases(seed: u64) -> Vec<LoadCode> {
        let codes = cases::codes(seed).into_iter();
        codes.map(|code| LoadCode { code }).collect()
    }

    fn packed(&self) -> Option<Packed> {
        let bytes = [self.code.clone(), vec![], vec![]];
        Some(Packed { kind: b'l', bytes })
    }
}

#[cfg(test)]
mod tests {
    use super::*;
    use crate::entry::tests::{answer_to, case, no_cases, read_back};
    use crate::entry::Case;

    #[test]
    fn lines_say_cases() {
        let code = vec![1, 2, 7];
        assert_eq!(case::<LoadCode>("load-code 01 02 07"), LoadCode { code });
        read_back::<LoadCode>(&["load-code", "load-code 01*320"]);
        no_cases::<LoadCode>(&["load-code 1", "load-code 01 | 02", "load 01"]);
    }

    #[test]
    fn a_case_is_packed() {
        let packed = case::<LoadCode>("load-code 01 02 07").packed().unwrap();
        assert_eq!(
            (packed.kind, packed.bytes),
            (b'l', [vec![1, 2, 7], vec![], vec![]])
        );
    }

    #[test]
    fn answers_as_lines() {
        assert_eq!(answer_to("load-code 01 02 07"), "accepted 2");
        assert_eq!(answer_to("load-code 01 05 01 00"), "refused 10 1");
    }
}
