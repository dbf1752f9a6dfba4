//! A case for the search: `search RULE | TABLE | WITNESS | FILL`. TABLE and WITNESS are
//! the lengths of the two buffers, in decimal, and FILL is the byte that both are full
//! of before.

use super::cases;
use super::{search, Answer};
use crate::entry;
use crate::refusal::Refusal;
use crate::text::{byte_of_words, bytes_of_words, words_of_buffer, words_of_bytes};

/// A rule, the lengths of the two buffers, and the byte that fills them.
#[derive(Clone, Debug, PartialEq, Eq)]
pub struct Search {
    pub rule: Vec<u8>,
    pub table: usize,
    pub witness: usize,
    pub fill: u8,
}

impl entry::Case for Search {
    const VERBS: &'static [&'static str] = &["search"];

    fn of_parts(_: &str, parts: &[&str]) -> Result<Option<Search>, String> {
        let [rule, table, witness, fill] = parts else {
            return Ok(None);
        };
        Ok(Some(Search {
            rule: bytes_of_words(rule)?,
            table: length_of_words(table)?,
            witness: length_of_words(witness)?,
            fill: byte_of_words(fill)?,
        }))
    }

    fn parts(&self) -> (&'static str, Vec<String>) {
        let parts = vec![
            words_of_bytes(&self.rule),
            self.table.to_string(),
            self.witness.to_string(),
            words_of_bytes(&[self.fill]),
        ];
        ("search", parts)
    }

    fn answer(&self) -> String {
        let mut table = vec![self.fill; self.table];
        let mut witness = vec![self.fill; self.witness];
        let found = search(&self.rule, &mut table, &mut witness);
        answer_line(found, &table, &witness, self.fill)
    }

    fn cases(seed: u64) -> Vec<Search> {
        cases::searches(seed)
    }
}

/// The length that a text says.
fn length_of_words(text: &str) -> Result<usize, String> {
    text.parse()
        .map_err(|_| format!("{text:?} is not a length"))
}

/// What a search answers, as a line without its end: `met LENGTH STATES`, `none
/// STATES` or `refused NUMBER PLACE`; ` [WITNESS]` with every byte of the witness
/// buffer after it, two hex digits each; and ` table NONZERO CHANGED`, how many
/// bytes of the table are then not 0, and how many are not what they were.
pub fn answer_line(
    found: Result<Answer, Refusal>,
    table: &[u8],
    witness: &[u8],
    fill: u8,
) -> String {
    let done = found.map(|answer| match answer {
        Answer::Met { length, states } => format!("met {length} {states}"),
        Answer::None { states } => format!("none {states}"),
    });
    let done = words_of_buffer(done, witness);
    let count = |other: u8| table.iter().filter(|&&byte| byte != other).count();
    format!("{done} table {} {}", count(0), count(fill))
}

#[cfg(test)]
mod tests {
    use super::*;
    use crate::entry::tests::{answer_to, case, no_cases, read_back};
    use crate::limits::RECORD;

    #[test]
    fn lines_say_cases() {
        let search = Search {
            rule: vec![0x12, 0x00],
            table: 80,
            witness: 1,
            fill: 0xff,
        };
        assert_eq!(case::<Search>("search 12 00 | 80 | 1 | ff"), search);
        assert_eq!(case::<Search>(" search 12 00*1|80|1|ff# met"), search);
        let search = Search {
            rule: vec![],
            table: 0,
            witness: 4_294_967_295,
            fill: 0,
        };
        assert_eq!(case::<Search>("search | 0 | 4294967295 | 00"), search);
        read_back::<Search>(&[
            "search 12 00 32 02 04 | 5242961 | 5 | a5",
            "search 10 20*64 | 80 | 0 | 00",
            "search  | 0 | 4081 | ff",
        ]);
        no_cases::<Search>(&[
            "search",
            "search 12 00",
            "search 1 | 80 | 1 | ff",
            "search 12 00 | 80 | 1",
            "search 12 00 | 80 | 1 |",
            "search 12 00 | 80 | 1 | ff 00",
            "search 12 00 | 80 | 1 | ff | ff",
            "search 12 00 | | 1 | ff",
            "search 12 00 | 80 | -1 | ff",
        ]);
    }

    #[test]
    fn answers_as_lines() {
        // So many records and bytes.
        let answer_to = |rule: &str, records: usize, bytes: usize, rest: &str| {
            answer_to(&format!(
                "search {rule} | {} | {rest}",
                records * RECORD + bytes
            ))
        };
        let rule = "12 00 32 02 04";
        assert_eq!(
            answer_to(rule, 4, 0, "7 | ff"),
            format!("met 3 4 [000001ffffffff] table 0 {}", 4 * RECORD)
        );
        assert_eq!(
            answer_to("11", 1, 5, "2 | a5"),
            format!("none 1 [a5a5] table 0 {}", RECORD + 5)
        );
        let refused = "refused 15 0 [a5] table 0 9";
        assert_eq!(answer_to("11", 0, 9, "1 | a5"), refused);
        let refused = "refused 14 0 [] table 9 0";
        assert_eq!(answer_to("11", 0, 9, "0 | a5"), refused);
        let refused = "refused 9 2 [00] table 0 0";
        assert_eq!(answer_to("10 10", 0, 9, "1 | 00"), refused);
        assert_eq!(answer_to("12 00", 1, 0, "1 | 00"), "met 1 1 [01] table 0 0");
    }
}
