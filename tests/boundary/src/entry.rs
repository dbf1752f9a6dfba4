//! The list of all entries: how the library answers the cases of each, and which lists
//! of cases are compared.

use crate::compare::List;
use crate::{drive, emit, load, load_code, makers, run, search, standing, step, verdicts};

/// An entry.
pub struct Entry {
    /// The verbs of its lines.
    pub verbs: &'static [&'static str],
    /// The library's answer to the case of a line.
    pub answer: fn(&str) -> Result<String, String>,
    /// The lists that are compared.
    pub lists: &'static [List],
}

/// All entries.
pub const ENTRIES: [Entry; 10] = [
    load::ENTRY,
    load_code::ENTRY,
    step::ENTRY,
    run::ENTRY,
    emit::ENTRY,
    verdicts::ENTRY,
    search::ENTRY,
    makers::ENTRY,
    standing::ENTRY,
    drive::ENTRY,
];

/// The entry with a verb.
pub fn of_verb(verb: &str) -> Result<&'static Entry, String> {
    let mut entries = const { &ENTRIES }.iter();
    let found = entries.find(|entry| entry.verbs.contains(&verb));
    found.ok_or_else(|| format!("{verb:?} is no verb"))
}

#[cfg(test)]
mod tests {
    use super::*;

    #[test]
    fn each_verb_of_the_second_program_is_answered() {
        for entry in &second::entry::ENTRIES {
            for verb in entry.verbs {
                assert_eq!(of_verb(verb).unwrap().verbs, entry.verbs);
            }
        }
        assert!(of_verb("other").is_err());
    }
}
