//! A case for emitting: `emit RULE | BUFFER`, the buffer as it is before.

use super::cases;
use super::emit_rule;
use crate::entry;
use crate::refusal::Refusal;
use crate::stream::Packed;
use crate::text::{bytes_of_words, words_of_buffer, words_of_bytes};

/// A rule, and the buffer before.
#[derive(Clone, Debug, PartialEq, Eq)]
pub struct Emit {
    pub rule: Vec<u8>,
    pub buffer: Vec<u8>,
}

impl entry::Case for Emit {
    const VERBS: &'static [&'static str] = &["emit"];

    fn of_parts(_: &str, parts: &[&str]) -> Result<Option<Emit>, String> {
        let [rule, buffer] = parts else {
            return Ok(None);
        };
        Ok(Some(Emit {
            rule: bytes_of_words(rule)?,
            buffer: bytes_of_words(buffer)?,
        }))
    }

    fn parts(&self) -> (&'static str, Vec<String>) {
        let parts = [&self.rule, &self.buffer];
        ("emit", parts.map(|bytes| words_of_bytes(bytes)).into())
    }

    fn answer(&self) -> String {
        let mut after = self.buffer.clone();
        let emitted = emit_rule(&self.rule, &mut after);
        answer_line(emitted, &after)
    }

    fn cases(seed: u64) -> Vec<Emit> {
        cases::emits(seed)
    }

    fn packed(&self) -> Option<Packed> {
        let bytes = [self.rule.clone(), vec![], self.buffer.clone()];
        Some(Packed { kind: b'e', bytes })
    }
}

/// What emitting answers, as a line without its end: `length LENGTH` or the refusal,
/// and ` [BUFFER]` with every byte of the buffer after it, two hex digits each.
pub fn answer_line(emitted: Result<usize, Refusal>, after: &[u8]) -> String {
    words_of_buffer(emitted.map(|length| format!("length {length}")), after)
}

#[cfg(test)]
mod tests {
    use super::*;
    use crate::entry::tests::{answer_to, case, no_cases, read_back};
    use crate::entry::Case;

    #[test]
    fn lines_say_cases() {
        let emit = Emit {
            rule: vec![0x12, 0],
            buffer: vec![9; 4],
        };
        assert_eq!(case::<Emit>("emit 12 00 | 09*4"), emit);
        read_back::<Emit>(&["emit 12 07 20*5 | ff*400", "emit  |"]);
        no_cases::<Emit>(&["emit 10", "emit 10 | | 00", "emit 10 | x"]);
    }

    #[test]
    fn a_case_is_packed() {
        let packed = case::<Emit>("emit 10 | 04 05").packed().unwrap();
        let bytes = [vec![0x10], vec![], vec![4, 5]];
        assert_eq!((packed.kind, packed.bytes), (b'e', bytes));
    }

    #[test]
    fn answers_as_lines() {
        assert_eq!(
            answer_to("emit 12 00 32 02 04 | ff*12"),
            "length 10 [02000104010002050202ffff]"
        );
        assert_eq!(answer_to("emit 10 |"), "refused 16 0 []");
        assert_eq!(answer_to("emit 10 10 | 09"), "refused 9 2 [09]");
    }
}
