//! Single steps. The archive has no function for them; the program `runs` takes them.

use crate::compare::List;
use crate::entry::Entry;
use crate::program;
use second::entry::Case;
use second::step::case::Step;

pub const ENTRY: Entry = Entry {
    verbs: Step::VERBS,
    answer: program::answer_of_runs::<Step>,
    lists: &[List {
        name: "step",
        least: 11_000,
        long: true,
        compare: |list, seed, all| all.lines(list, Step::cases(seed), program::runs),
    }],
};
