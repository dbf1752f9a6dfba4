//! A case for a run: `run CODE | CLIP | BUFFER`, the buffer as it is before.

use super::cases;
use super::run;
use crate::entry;
use crate::refusal::Refusal;
use crate::stream::Packed;
use crate::text::{bytes_of_words, words_of_buffer, words_of_bytes};

/// Code, a clip, and the buffer before.
#[derive(Clone, Debug, PartialEq, Eq)]
pub struct Run {
    pub code: Vec<u8>,
    pub clip: Vec<u8>,
    pub buffer: Vec<u8>,
}

impl entry::Case for Run {
    const VERBS: &'static [&'static str] = &["run"];

    fn of_parts(_: &str, parts: &[&str]) -> Result<Option<Run>, String> {
        let [code, clip, buffer] = parts else {
            return Ok(None);
        };
        Ok(Some(Run {
            code: bytes_of_words(code)?,
            clip: bytes_of_words(clip)?,
            buffer: bytes_of_words(buffer)?,
        }))
    }

    fn parts(&self) -> (&'static str, Vec<String>) {
        let parts = [&self.code, &self.clip, &self.buffer];
        ("run", parts.map(|bytes| words_of_bytes(bytes)).into())
    }

    fn answer(&self) -> String {
        let mut after = self.buffer.clone();
        let ran = run(&self.code, &self.clip, &mut after);
        answer_line(ran, &after)
    }

    fn cases(seed: u64) -> Vec<Run> {
        cases::runs(seed)
    }

    fn packed(&self) -> Option<Packed> {
        let bytes = [&self.code, &self.clip, &self.buffer].map(Vec::clone);
        Some(Packed { kind: b'r', bytes })
    }
}

/// What a run answers, as a line without its end: `done` or the refusal, and
/// ` [BUFFER]` with every byte of the buffer after it, two hex digits each.
pub fn answer_line(ran: Result<(), Refusal>, after: &[u8]) -> String {
    words_of_buffer(ran.map(|()| "done".to_string()), after)
}

#[cfg(test)]
mod tests {
    use super::*;
    use crate::entry::tests::{answer_to, case, no_cases, read_back};
    use crate::entry::Case;

    #[test]
    fn lines_say_cases() {
        let run = Run {
            code: vec![2, 0],
            clip: vec![3, 3, 3],
            buffer: vec![],
        };
        assert_eq!(case::<Run>("run 02 00 | 03*3 |"), run);
        read_back::<Run>(&["run 01 01 01 01 | 00*65536 | 01 02*5 00"]);
        no_cases::<Run>(&[
            "run 01",
            "run 01 | 00",
            "run 01 | 00 | 00 | 00",
            "run 01 | 0 |",
        ]);
    }

    #[test]
    fn a_case_is_packed() {
        let packed = case::<Run>("run 01 | 02 03 | 04").packed().unwrap();
        let bytes = [vec![1], vec![2, 3], vec![4]];
        assert_eq!((packed.kind, packed.bytes), (b'r', bytes));
    }

    #[test]
    fn answers_as_lines() {
        assert_eq!(
            answer_to("run 02 00 02 01 04 00 01 02 05 02 01 | 00 01 02 | ff*4"),
            "done [010100ff]"
        );
        assert_eq!(answer_to("run 01 | 00 00 | 09"), "refused 16 0 [09]");
        assert_eq!(answer_to("run | |"), "refused 1 0 []");
    }
}
