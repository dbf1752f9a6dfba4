//! The rules for the search, read from bench/rules.txt, which says what stands in a
//! line.

use second::text::bytes_of_words;

const TEXT: &str = include_str!("../../rules.txt");

/// What a search has to answer.
#[derive(Clone, Copy, PartialEq, Eq)]
pub enum Expected {
    Met,
    None,
    /// None, and the table is full of records.
    Full,
}

/// A rule for the search.
pub struct Rule {
    /// The flags that it names.
    pub flags: usize,
    /// Where most of its states come from.
    pub kind: &'static str,
    pub expected: Expected,
    pub states: usize,
    pub bytes: Vec<u8>,
}

/// All rules, in the order of the file.
pub fn rules() -> Vec<Rule> {
    let lines = TEXT.lines().filter(|line| !line.starts_with('#'));
    let full = lines.filter(|line| !line.is_empty());
    full.map(|line| rule_of(line).unwrap_or_else(|| panic!("{line:?} is no rule")))
        .collect()
}

/// The rule of a line.
fn rule_of(line: &'static str) -> Option<Rule> {
    let (words, bytes) = line.split_once('|')?;
    let words: Vec<&str> = words.split_whitespace().collect();
    let [flags, kind, expected, states] = words[..] else {
        return None;
    };
    Some(Rule {
        flags: flags.parse().ok()?,
        kind,
        expected: match expected {
            "met" => Expected::Met,
            "none" => Expected::None,
            "full" => Expected::Full,
            _ => return None,
        },
        states: states.parse().ok()?,
        bytes: bytes_of_words(bytes).ok()?,
    })
}
