//! Runs.

use crate::call::{answer, Before, Call, Called};
use crate::compare::List;
use crate::entry::Entry;
use crate::lent::{of_two, Lent};
use crate::word::{of_refusal, read};
use archive::thistlecart_run;
use second::entry::Case;
use second::refusal::Refusal;
use second::run::case::{answer_line, Run};
use second::run::run;

pub const ENTRY: Entry = Entry {
    verbs: Run::VERBS,
    answer: answer::<Run, 3>,
    lists: &[List {
        name: "run",
        least: 9_600,
        long: false,
        compare: |list, seed, all| all.calls(list, Run::cases(seed)),
    }],
};

impl Call<3> for Run {
    fn before(&self) -> [Before<'_>; 3] {
        [
            Before::Read(&self.code),
            Before::Read(&self.clip),
            Before::Written(&self.buffer),
        ]
    }

    fn by_library(&self, buffers: &mut [Lent; 3]) -> u64 {
        library_run(buffers)
    }

    fn by_second(&self, buffers: &mut [Lent; 3]) -> u64 {
        second_run(buffers)
    }

    fn words(&self) -> String {
        self.line()
    }
}

impl Called<3> for Run {
    fn said(&self, word: u64, [_, _, out]: &[Lent; 3]) -> Option<String> {
        ran(word).map(|ran| answer_line(ran, out.bytes()))
    }
}

/// The library's run: the code, the clip, the output buffer.
pub fn library_run([code, clip, out]: &mut [Lent; 3]) -> u64 {
    of_two(thistlecart_run, code, clip, out)
}

/// The second program's run.
pub fn second_run([code, clip, out]: &mut [Lent; 3]) -> u64 {
    of_ran(run(code.bytes(), clip.bytes(), out.bytes_mut()))
}

/// What a run answers: nothing but the refusal.
pub fn of_ran(ran: Result<(), Refusal>) -> u64 {
    ran.map_or_else(of_refusal, |()| 0)
}

/// What a word says of a run.
pub fn ran(word: u64) -> Option<Result<(), Refusal>> {
    read(word, |_| (), of_ran)
}

#[cfg(test)]
mod tests {
    use super::*;
    use crate::word::tests::{REFUSAL, REFUSED, REFUSED_IN_SECOND};

    #[test]
    fn words_of_runs() {
        for (ran, word) in [(Ok(()), 0), (Err(REFUSAL), REFUSED)] {
            assert_eq!(of_ran(ran), word);
            assert_eq!(super::ran(word), Some(ran));
        }
        assert_eq!(ran(0x100), None);
        assert_eq!(ran(REFUSED_IN_SECOND), None);
    }
}
