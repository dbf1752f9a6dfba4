//! The search.

use crate::call::{answer, Before, Call, Called};
use crate::compare::List;
use crate::entry::Entry;
use crate::lent::Lent;
use crate::word::{of_refusal, put, read};
use archive::{thistlecart_search, word};
use second::entry::Case;
use second::refusal::Refusal;
use second::search::case::{answer_line, Search};
use second::search::cases::{edge_cases, large_cases, random_cases};
use second::search::{search, Answer};

pub const ENTRY: Entry = Entry {
    verbs: Search::VERBS,
    answer: answer::<Search, 3>,
    lists: &[
        List {
            name: "search",
            least: 3_500,
            long: false,
            compare: |list, seed, all| all.calls(list, edge_cases(seed)),
        },
        List {
            name: "large search",
            least: 60,
            long: true,
            compare: |list, _, all| all.calls(list, large_cases()),
        },
        List {
            name: "random search",
            least: 8_000,
            long: true,
            compare: |list, seed, all| all.calls(list, random_cases(seed)),
        },
    ],
};

impl Call<3> for Search {
    /// The rule, the table, the witness buffer.
    fn before(&self) -> [Before<'_>; 3] {
        [
            Before::Read(&self.rule),
            Before::Full(self.fill, self.table),
            Before::Full(self.fill, self.witness),
        ]
    }

    fn by_library(&self, [rule, table, witness]: &mut [Lent; 3]) -> u64 {
        unsafe {
            thistlecart_search(
                rule.pointer(),
                rule.length(),
                table.pointer(),
                table.length(),
                witness.pointer(),
                witness.length(),
            )
        }
    }

    fn by_second(&self, [rule, table, witness]: &mut [Lent; 3]) -> u64 {
        let found = search(rule.bytes(), table.bytes_mut(), witness.bytes_mut());
        of_found(found)
    }

    fn words(&self) -> String {
        self.line()
    }
}

impl Called<3> for Search {
    fn said(&self, word: u64, [_, table, witness]: &[Lent; 3]) -> Option<String> {
        let line = |found| answer_line(found, table.bytes(), witness.bytes(), self.fill);
        found(word).map(line)
    }
}

/// What a search answers: met in bit 8, the length in bits 16 to 31, states in bits
/// 32 and up.
fn of_found(found: Result<Answer, Refusal>) -> u64 {
    match found {
        Ok(Answer::Met { length, states }) => {
            put(1, 8, 1) | put(length, 16, 16) | put(states, 32, 32)
        }
        Ok(Answer::None { states }) => put(states, 32, 32),
        Err(refusal) => of_refusal(refusal),
    }
}

/// What a word says of a search.
fn found(word: u64) -> Option<Result<Answer, Refusal>> {
    let held = |word| {
        let states = word::states(word);
        match word::met(word) {
            true => Answer::Met {
                length: word::length(word),
                states,
            },
            false => Answer::None { states },
        }
    };
    read(word, held, of_found)
}

#[cfg(test)]
mod tests {
    use super::*;
    use crate::word::tests::{REFUSAL, REFUSED, REFUSED_IN_SECOND};

    #[test]
    fn words_of_searches() {
        let met = Answer::Met {
            length: 3,
            states: 4,
        };
        for (found, word) in [
            (Ok(met), 0x0000_0004_0003_0100),
            (Ok(Answer::None { states: 65_536 }), 0x0001_0000_0000_0000),
            (Err(REFUSAL), REFUSED),
        ] {
            assert_eq!(of_found(found), word);
            assert_eq!(super::found(word), Some(found));
        }
        // None with a length, bits that mean nothing, which of a maker.
        assert_eq!(found(0x0000_0004_0003_0000), None);
        assert_eq!(found(0x0000_0004_0003_0300), None);
        assert_eq!(found(REFUSED_IN_SECOND), None);
    }
}
