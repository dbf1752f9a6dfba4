//! A case for a maker: `negate RULE | BUFFER`, `next RULE | BUFFER`, `both FIRST |
//! SECOND | BUFFER` or `either FIRST | SECOND | BUFFER`, the buffer as it is before.

use super::cases;
use super::{make, Made, Maker, Refused, Which, MAKERS};
use crate::entry;
use crate::text::{bytes_of_words, words_of_buffer, words_of_bytes};

/// A maker, its rules and its buffer. A maker of one rule has an empty second one.
#[derive(Clone, Debug, PartialEq, Eq)]
pub struct Make {
    pub maker: Maker,
    pub first: Vec<u8>,
    pub second: Vec<u8>,
    pub buffer: Vec<u8>,
}

/// The verb of a maker.
const fn verb(maker: Maker) -> &'static str {
    match maker {
        Maker::Negate => "negate",
        Maker::Next => "next",
        Maker::Both => "both",
        Maker::Either => "either",
    }
}

impl entry::Case for Make {
    const VERBS: &'static [&'static str] = &[
        verb(Maker::Negate),
        verb(Maker::Next),
        verb(Maker::Both),
        verb(Maker::Either),
    ];

    fn of_parts(word: &str, parts: &[&str]) -> Result<Option<Make>, String> {
        let maker = MAKERS.into_iter().find(|&maker| verb(maker) == word);
        let (maker, first, second, buffer) = match (maker, parts) {
            (Some(maker), [first, buffer]) if !maker.takes_two() => (maker, first, &"", buffer),
            (Some(maker), [first, second, buffer]) if maker.takes_two() => {
                (maker, first, second, buffer)
            }
            _ => return Ok(None),
        };
        Ok(Some(Make {
            maker,
            first: bytes_of_words(first)?,
            second: bytes_of_words(second)?,
            buffer: bytes_of_words(buffer)?,
        }))
    }

    fn parts(&self) -> (&'static str, Vec<String>) {
        let mut parts = vec![words_of_bytes(&self.first)];
        if self.maker.takes_two() {
            parts.push(words_of_bytes(&self.second));
        }
        parts.push(words_of_bytes(&self.buffer));
        (verb(self.maker), parts)
    }

    fn answer(&self) -> String {
        let mut after = self.buffer.clone();
        let made = make(self.maker, &self.first, &self.second, &mut after);
        answer_line(made, &after)
    }

    fn cases(seed: u64) -> Vec<Make> {
        cases::makes(seed)
    }
}

/// What a maker answers, as a line without its end: `length LENGTH` or `refused
/// NUMBER PLACE in WHICH`, and ` [BUFFER]` with every byte of the buffer after it,
/// two hex digits each. WHICH is `first`, `second` or `new`.
pub fn answer_line(made: Made, after: &[u8]) -> String {
    let done = match made {
        Ok(length) => format!("length {length}"),
        Err(Refused {
            which,
            number,
            place,
        }) => {
            let which = match which {
                Which::First => "first",
                Which::Second => "second",
                Which::New => "new",
            };
            format!("refused {number} {place} in {which}")
        }
    };
    words_of_buffer(Ok(done), after)
}

#[cfg(test)]
mod tests {
    use super::*;
    use crate::entry::tests::{answer_to, case, no_cases, read_back};
    use crate::entry::Case;

    #[test]
    fn each_maker_has_its_verb() {
        assert_eq!(Make::VERBS, MAKERS.map(verb));
    }

    #[test]
    fn lines_say_cases() {
        let negate = Make {
            maker: Maker::Negate,
            first: vec![0x12, 0x00],
            second: vec![],
            buffer: vec![9; 4],
        };
        assert_eq!(case::<Make>("negate 12 00 | 09*4"), negate);
        assert_eq!(case::<Make>(" negate 12 00|09*4# length 3"), negate);
        let either = Make {
            maker: Maker::Either,
            first: vec![],
            second: vec![0x10],
            buffer: vec![],
        };
        assert_eq!(case::<Make>("either | 10 |"), either);
        read_back::<Make>(&[
            "next 12 00 | a5",
            "negate 10 20*64 | 00*65536",
            "both 10 |  | ff*9",
            "either 12 00 | 12 01 20 | 00 01 02",
        ]);
        no_cases::<Make>(&[
            "negate",
            "negate 10",
            "negate 10 | 10 | 00",
            "next 1 | 00",
            "both 10 | 00",
            "both 10 | 10",
            "either 10 | 10 | 00 | 00",
            "search 10 | 00",
        ]);
    }

    #[test]
    fn answers_as_lines() {
        assert_eq!(answer_to("next 12 00 | ff*7"), "length 5 [1200330101ffff]");
        assert_eq!(answer_to("negate 10 | 07"), "refused 16 0 in new [07]");
        assert_eq!(answer_to("both 10 10 | | ff"), "refused 9 2 in first [ff]");
        assert_eq!(answer_to("either 10 | 12 08 |"), "refused 5 0 in second []");
    }
}
