//! The program that prints a rule's standing.

use crate::compare::List;
use crate::entry::Entry;
use crate::program;
use second::entry::Case;
use second::standing::case::Standing;

pub const ENTRY: Entry = Entry {
    verbs: Standing::VERBS,
    answer: |line| printed(&Standing::of_line(line)?),
    lists: &[List {
        name: "standing",
        least: 220,
        long: true,
        compare: |list, seed, all| {
            let printed = |cases: &[Standing]| cases.iter().map(printed).collect();
            all.lines(list, Standing::cases(seed), printed);
        },
    }],
};

/// What the program prints for some input, as a line. It ends with status 0.
fn printed(case: &Standing) -> Result<String, String> {
    let ended = program::start(&mut program::of("bin/standing"), case.input.clone())?;
    match ended.status {
        Some(0) => Ok(ended.line()),
        status => Ok(format!("{}, status {status:?}", ended.line())),
    }
}
