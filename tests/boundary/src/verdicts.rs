//! The verdicts of a rule on a clip: the library emits the rule and runs its code, the
//! second program goes by the rule's meaning.

use crate::call::{answer, Before, Call, Called};
use crate::compare::List;
use crate::emit::{emitted, library_emit};
use crate::entry::Entry;
use crate::lent::{of_two, Lent};
use crate::run::{of_ran, ran};
use archive::header::CODE_LENGTH;
use archive::thistlecart_run;
use second::emit::emit_rule;
use second::entry::Case;
use second::run::case::answer_line;
use second::verdicts::case::Verdicts;
use second::verdicts::write_verdicts;

pub const ENTRY: Entry = Entry {
    verbs: Verdicts::VERBS,
    answer: answer::<Verdicts, 4>,
    lists: &[List {
        name: "verdicts",
        least: 26_000,
        long: false,
        compare: |list, seed, all| all.calls(list, Verdicts::cases(seed)),
    }],
};

impl Call<4> for Verdicts {
    /// The rule, a buffer for its code, the clip, the output buffer.
    fn before(&self) -> [Before<'_>; 4] {
        [
            Before::Read(&self.rule),
            Before::Room(CODE_LENGTH),
            Before::Read(&self.clip),
            Before::Written(&self.buffer),
        ]
    }

    fn by_library(&self, [rule, code, clip, out]: &mut [Lent; 4]) -> u64 {
        let word = library_emit(rule, code);
        match emitted(word) {
            Some(Ok(length)) if code.shorten(length) => of_two(thistlecart_run, code, clip, out),
            _ => word,
        }
    }

    fn by_second(&self, [rule, code, clip, out]: &mut [Lent; 4]) -> u64 {
        if let Ok(length) = emit_rule(rule.bytes(), code.bytes_mut()) {
            code.shorten(length);
        }
        of_ran(write_verdicts(rule.bytes(), clip.bytes(), out.bytes_mut()))
    }

    fn words(&self) -> String {
        self.line()
    }
}

impl Called<4> for Verdicts {
    fn said(&self, word: u64, [_, _, _, out]: &[Lent; 4]) -> Option<String> {
        ran(word).map(|ran| answer_line(ran, out.bytes()))
    }
}
