//! Emitting.

use crate::call::{answer, Before, Call, Called};
use crate::compare::List;
use crate::entry::Entry;
use crate::lent::{of_one, Lent};
use crate::word::{of_refusal, put, read};
use archive::{thistlecart_emit, word};
use second::emit::case::{answer_line, Emit};
use second::emit::emit_rule;
use second::entry::Case;
use second::refusal::Refusal;

pub const ENTRY: Entry = Entry {
    verbs: Emit::VERBS,
    answer: answer::<Emit, 2>,
    lists: &[List {
        name: "emit",
        least: 43_000,
        long: false,
        compare: |list, seed, all| all.calls(list, Emit::cases(seed)),
    }],
};

impl Call<2> for Emit {
    fn before(&self) -> [Before<'_>; 2] {
        [Before::Read(&self.rule), Before::Written(&self.buffer)]
    }

    fn by_library(&self, [rule, out]: &mut [Lent; 2]) -> u64 {
        library_emit(rule, out)
    }

    fn by_second(&self, [rule, out]: &mut [Lent; 2]) -> u64 {
        of_emitted(emit_rule(rule.bytes(), out.bytes_mut()))
    }

    fn words(&self) -> String {
        self.line()
    }
}

impl Called<2> for Emit {
    fn said(&self, word: u64, [_, out]: &[Lent; 2]) -> Option<String> {
        emitted(word).map(|emitted| answer_line(emitted, out.bytes()))
    }
}

/// The library's emitting.
pub fn library_emit(rule: &mut Lent, out: &mut Lent) -> u64 {
    of_one(thistlecart_emit, rule, out)
}

/// What emitting answers: the length in bits 8 and up.
fn of_emitted(emitted: Result<usize, Refusal>) -> u64 {
    match emitted {
        Ok(length) => put(length, 8, 56),
        Err(refusal) => of_refusal(refusal),
    }
}

/// What a word says of emitting.
pub fn emitted(word: u64) -> Option<Result<usize, Refusal>> {
    read(word, word::length, of_emitted)
}

#[cfg(test)]
mod tests {
    use super::*;
    use crate::word::tests::{REFUSAL, REFUSED, REFUSED_IN_SECOND};

    #[test]
    fn words_of_emitting() {
        for (emitted, word) in [(Ok(0x295), 0x2_9500), (Err(REFUSAL), REFUSED)] {
            assert_eq!(of_emitted(emitted), word);
            assert_eq!(super::emitted(word), Some(emitted));
        }
        assert_eq!(emitted(REFUSED_IN_SECOND), None);
    }
}
