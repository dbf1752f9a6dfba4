//! Loading a rule.

use crate::call::{answer, Before, Call, Called};
use crate::compare::List;
use crate::entry::Entry;
use crate::lent::Lent;
use crate::word::{of_refusal, put, read};
use archive::{thistlecart_load, word};
use second::entry::Case;
use second::load::case::{answer_line, Load};
use second::load::load;
use second::refusal::Refusal;

pub const ENTRY: Entry = Entry {
    verbs: Load::VERBS,
    answer: answer::<Load, 1>,
    lists: &[List {
        name: "load",
        least: 340_000,
        long: false,
        compare: |list, seed, all| all.calls(list, Load::cases(seed)),
    }],
};

impl Call<1> for Load {
    fn before(&self) -> [Before<'_>; 1] {
        [Before::Read(&self.rule)]
    }

    fn by_library(&self, [rule]: &mut [Lent; 1]) -> u64 {
        unsafe { thistlecart_load(rule.pointer(), rule.length()) }
    }

    fn by_second(&self, [rule]: &mut [Lent; 1]) -> u64 {
        of_loaded(load(rule.bytes()).map(|rule| (rule.items, rule.horizon)))
    }

    fn words(&self) -> String {
        self.line()
    }
}

impl Called<1> for Load {
    fn said(&self, word: u64, _: &[Lent; 1]) -> Option<String> {
        loaded(word).map(answer_line)
    }
}

/// What loading answers, items and horizon: items in bits 8 to 23, the horizon in
/// bits 24 and up.
fn of_loaded(loaded: Result<(usize, usize), Refusal>) -> u64 {
    match loaded {
        Ok((items, horizon)) => put(items, 8, 16) | put(horizon, 24, 40),
        Err(refusal) => of_refusal(refusal),
    }
}

/// What a word says of loading.
fn loaded(word: u64) -> Option<Result<(usize, usize), Refusal>> {
    read(
        word,
        |word| (word::items(word), word::horizon(word)),
        of_loaded,
    )
}

#[cfg(test)]
mod tests {
    use super::*;
    use crate::word::tests::{REFUSAL, REFUSED, REFUSED_IN_SECOND};

    #[test]
    fn words_of_loading() {
        for (loaded, word) in [
            (Ok((2, 4)), 0x0400_0200),
            (Ok((0x40, 0xff0)), 0x0f_f000_4000),
            (Err(REFUSAL), REFUSED),
        ] {
            assert_eq!(of_loaded(loaded), word);
            assert_eq!(super::loaded(word), Some(loaded));
        }
        assert_eq!(loaded(REFUSED_IN_SECOND), None);
    }
}
