//! A case for the verdicts of a rule on a clip: `verdicts RULE | CLIP | BUFFER`, the
//! buffer as it is before. The library runs the rule's emitted code; here they come
//! from the rule's meaning.

use super::cases;
use super::write_verdicts;
use crate::entry;
use crate::run::case::answer_line;
use crate::stream::Packed;
use crate::text::{bytes_of_words, words_of_bytes};

/// A rule, a clip, and the buffer before.
#[derive(Clone, Debug, PartialEq, Eq)]
pub struct Verdicts {
    pub rule: Vec<u8>,
    pub clip: Vec<u8>,
    pub buffer: Vec<u8>,
}

impl entry::Case for Verdicts {
    const VERBS: &'static [&'static str] = &["verdicts"];

    fn of_parts(_: &str, parts: &[&str]) -> Result<Option<Verdicts>, String> {
        let [rule, clip, buffer] = parts else {
            return Ok(None);
        };
        Ok(Some(Verdicts {
            rule: bytes_of_words(rule)?,
            clip: bytes_of_words(clip)?,
            buffer: bytes_of_words(buffer)?,
        }))
    }

    fn parts(&self) -> (&'static str, Vec<String>) {
        let parts = [&self.rule, &self.clip, &self.buffer];
        ("verdicts", parts.map(|bytes| words_of_bytes(bytes)).into())
    }

    /// As a run answers.
    fn answer(&self) -> String {
        let mut after = self.buffer.clone();
        let done = write_verdicts(&self.rule, &self.clip, &mut after);
        answer_line(done, &after)
    }

    fn cases(seed: u64) -> Vec<Verdicts> {
        cases::verdicts(seed)
    }

    fn packed(&self) -> Option<Packed> {
        let bytes = [&self.rule, &self.clip, &self.buffer].map(Vec::clone);
        Some(Packed { kind: b'j', bytes })
    }
}

#[cfg(test)]
mod tests {
    use super::*;
    use crate::entry::tests::{answer_to, case, no_cases, read_back};
    use crate::entry::Case;

    #[test]
    fn lines_say_cases() {
        let verdicts = Verdicts {
            rule: vec![],
            clip: vec![1, 2],
            buffer: vec![0],
        };
        assert_eq!(case::<Verdicts>("verdicts | 01 02 | 00"), verdicts);
        read_back::<Verdicts>(&["verdicts 10 | 00 01 02 | 03"]);
        no_cases::<Verdicts>(&["verdicts 10 | 00", "verdicts 10 | 00 | 00 | 00"]);
    }

    #[test]
    fn a_case_is_packed() {
        let packed = case::<Verdicts>("verdicts 10 | 02 03 | 04")
            .packed()
            .unwrap();
        let bytes = [vec![0x10], vec![2, 3], vec![4]];
        assert_eq!((packed.kind, packed.bytes), (b'j', bytes));
    }

    #[test]
    fn answers_as_lines() {
        assert_eq!(
            answer_to("verdicts 12 00 12 01 30 01 03 | 00 01 02 | ff*4"),
            "done [010100ff]"
        );
        assert_eq!(answer_to("verdicts 10 | | 09"), "refused 13 0 [09]");
        assert_eq!(answer_to("verdicts 10 | 00 00 | 09"), "refused 16 0 [09]");
        assert_eq!(answer_to("verdicts 21 | | 09"), "refused 7 0 [09]");
    }
}
