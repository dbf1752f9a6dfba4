//! What both programs are asked: the one form of a case, whatever the entry, and the
//! list of all entries.
//!
//! A case is a line of text, `VERB PART | PART ..`; behind `#` a comment may stand,
//! which in the samples is the expected answer. An answer is a line of text too.

use crate::stream::Packed;
use crate::{emit, load, load_code, makers, run, search, standing, step, verdicts};

/// A case of an entry.
pub trait Case: Sized {
    /// The verbs of its lines.
    const VERBS: &'static [&'static str];

    /// The case of one of these verbs and the parts of a line. None if it has
    /// another number of parts.
    fn of_parts(verb: &str, parts: &[&str]) -> Result<Option<Self>, String>;

    /// The verb and the parts.
    fn parts(&self) -> (&'static str, Vec<String>);

    /// What document 01 wants as the answer, as a line without its end.
    fn answer(&self) -> String;

    /// The list of cases that both programs answer, the same for the same seed.
    fn cases(seed: u64) -> Vec<Self>;

    /// The case for the program `runs`, if that answers such.
    fn packed(&self) -> Option<Packed> {
        None
    }

    /// The case of a line.
    fn of_line(line: &str) -> Result<Self, String> {
        let case = match split(line) {
            Some((verb, parts)) if Self::VERBS.contains(&verb) => Self::of_parts(verb, &parts)?,
            _ => None,
        };
        case.ok_or_else(|| format!("{line:?} is no case"))
    }

    /// The case as a line without its end.
    fn line(&self) -> String {
        let (verb, parts) = self.parts();
        format!("{verb} {}", parts.join(" | "))
    }
}

/// An entry, whatever the type of its cases.
pub struct Entry {
    /// The verbs of its lines.
    pub verbs: &'static [&'static str],
    /// The lines of its cases for a seed.
    pub lines: fn(u64) -> Vec<String>,
    /// The answer to the case of a line.
    pub answer: fn(&str) -> Result<String, String>,
    /// The case of a line as part of the stream.
    pub pack: fn(&str) -> Result<Vec<u8>, String>,
}

/// All entries.
pub const ENTRIES: [Entry; 9] = [
    entry::<load::case::Load>(),
    entry::<load_code::case::LoadCode>(),
    entry::<step::case::Step>(),
    entry::<run::case::Run>(),
    entry::<emit::case::Emit>(),
    entry::<verdicts::case::Verdicts>(),
    entry::<search::case::Search>(),
    entry::<makers::case::Make>(),
    entry::<standing::case::Standing>(),
];

/// The entry of some cases.
const fn entry<C: Case>() -> Entry {
    Entry {
        verbs: C::VERBS,
        lines: |seed| C::cases(seed).iter().map(C::line).collect(),
        answer: |line| Ok(C::of_line(line)?.answer()),
        pack: |line| {
            let packed = C::of_line(line)?.packed();
            Ok(packed.ok_or("`runs` answers no such case")?.stream())
        },
    }
}

/// The entry with a verb.
pub fn of_verb(verb: &str) -> Result<&'static Entry, String> {
    let mut entries = const { &ENTRIES }.iter();
    let found = entries.find(|entry| entry.verbs.contains(&verb));
    found.ok_or_else(|| format!("{verb:?} is no verb"))
}

/// The verb of a line and its parts, or none if it is empty or holds only a
/// comment.
pub fn split(line: &str) -> Option<(&str, Vec<&str>)> {
    let (text, _) = line.split_once('#').unwrap_or((line, ""));
    let text = text.trim();
    let (verb, rest) = text.split_once(' ').unwrap_or((text, ""));
    (!text.is_empty()).then(|| (verb, rest.split('|').map(str::trim).collect()))
}

#[cfg(test)]
pub mod tests {
    use super::*;
    use std::collections::BTreeMap;
    use std::fmt::Debug;
    use std::ops::Range;

    /// The case of a line.
    pub fn case<C: Case>(line: &str) -> C {
        C::of_line(line).unwrap()
    }

    /// The answer to a line.
    pub fn answer_to(line: &str) -> String {
        let (verb, _) = split(line).unwrap();
        (of_verb(verb).unwrap().answer)(line).unwrap()
    }

    /// Asserts that each line, in which all is written out, is read and written
    /// back.
    pub fn read_back<C: Case + Debug + PartialEq>(lines: &[&str]) {
        for line in lines {
            let case: C = case(line);
            assert_eq!(case.line().trim(), *line);
            let longer = format!("  {} # {line}", line.replace(" | ", "|"));
            assert_eq!(C::of_line(&longer), Ok(case));
        }
    }

    /// Asserts that none of the lines is a case.
    pub fn no_cases<C: Case>(lines: &[&str]) {
        for line in lines.iter().chain(&["", " # 01", "01", "other 01"]) {
            assert!(C::of_line(line).is_err(), "{line}");
        }
    }

    /// Asserts that a list goes by its seed, and how long it is.
    pub fn a_seed_fixes_the_list<C: Case + Debug + PartialEq>(lengths: Range<usize>) {
        let lists = [1, 1, 2, u64::MAX].map(C::cases);
        assert_eq!(lists[0], lists[1]);
        assert_ne!(lists[0], lists[2]);
        for length in lists.map(|list| list.len()) {
            assert!(lengths.contains(&length), "{length}");
        }
    }

    /// How often each answer comes for seed 1: its first word, with the number
    /// behind it if it is a refusal or a bit.
    pub fn answers<C: Case>() -> BTreeMap<String, usize> {
        let mut seen = BTreeMap::new();
        for case in C::cases(1) {
            let line = case.answer();
            let words: Vec<&str> = line.split_whitespace().take(2).collect();
            let key = match words[0] {
                "refused" | "bit" => words.join(" "),
                word => word.to_string(),
            };
            *seen.entry(key).or_insert(0) += 1;
        }
        seen
    }

    /// The number of the refusal that a case is answered by, or 0 if there is none.
    pub fn number(case: &impl Case) -> usize {
        let line = case.answer();
        let refusal = line.strip_prefix("refused ");
        refusal.map_or(0, |words| words.split(' ').next().unwrap().parse().unwrap())
    }

    /// How often each refusal comes, by its number; at 0, none.
    pub fn numbers(cases: &[impl Case]) -> [usize; 17] {
        let mut seen = [0; 17];
        for case in cases {
            seen[number(case)] += 1;
        }
        seen
    }

    #[test]
    fn each_verb_is_of_one_entry() {
        let mut verbs: Vec<&str> = ENTRIES
            .iter()
            .flat_map(|entry| entry.verbs)
            .copied()
            .collect();
        let count = verbs.len();
        verbs.sort();
        verbs.dedup();
        assert_eq!(verbs.len(), count);
        assert!(of_verb("Load").is_err());
    }

    #[test]
    fn lines_have_a_verb_and_parts() {
        assert_eq!(split(""), None);
        assert_eq!(split("  # load 10"), None);
        assert_eq!(split("load"), Some(("load", vec![""])));
        assert_eq!(split("load # nothing"), Some(("load", vec![""])));
        assert_eq!(
            split(" run 01|02 | # x | y"),
            Some(("run", vec!["01", "02", ""]))
        );
    }

    #[test]
    fn only_some_cases_are_packed() {
        let pack = |line: &str| (of_verb(split(line).unwrap().0).unwrap().pack)(line);
        assert!(pack("load 10").is_err());
        assert!(pack("run 01 | 00 | 00").is_ok());
    }
}
