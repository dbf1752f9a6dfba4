//! What a search answers, whichever program it is asked of.

use crate::c_search::CAnswer;
use archive::word;
use second::refusal::Refusal;
use second::search::Answer as SecondAnswer;

#[derive(Clone, Debug, PartialEq, Eq)]
pub enum Answer {
    /// The first of the shortest clips that satisfy the rule.
    Met { clip: Vec<u8>, states: usize },
    /// No clip satisfies the rule.
    None { states: usize },
    /// The number of the refusal.
    Refused(u8),
}

/// The refusal for a table with too few records.
pub const NO_ROOM: u8 = 15;

/// The answer that the library's word says, with the witness buffer after the call.
pub fn of_library(word: u64, witness: &[u8]) -> Answer {
    let states = word::states(word);
    match (word::refusal(word), word::met(word)) {
        (0, false) => Answer::None { states },
        (0, true) => Answer::Met {
            clip: witness[..word::length(word)].to_vec(),
            states,
        },
        (number, _) => Answer::Refused(number),
    }
}

/// The second program's answer, with the witness buffer after the call.
pub fn of_second(found: Result<SecondAnswer, Refusal>, witness: &[u8]) -> Answer {
    match found {
        Ok(SecondAnswer::Met { length, states }) => Answer::Met {
            clip: witness[..length].to_vec(),
            states,
        },
        Ok(SecondAnswer::None { states }) => Answer::None { states },
        Err(refusal) => Answer::Refused(refusal.number),
    }
}

/// The answer of the search in C, with the witness buffer after the call.
pub fn of_c(found: &CAnswer, witness: &[u8]) -> Answer {
    let states = found.states as usize;
    match (found.no_room, found.met) {
        (0, 0) => Answer::None { states },
        (0, _) => Answer::Met {
            clip: witness[..found.length as usize].to_vec(),
            states,
        },
        _ => Answer::Refused(NO_ROOM),
    }
}

impl Answer {
    /// The states, 0 for a refusal.
    pub fn states(&self) -> usize {
        match self {
            Answer::Met { states, .. } | Answer::None { states } => *states,
            Answer::Refused(_) => 0,
        }
    }

    pub fn is_met(&self) -> bool {
        matches!(self, Answer::Met { .. })
    }

    /// The frames of the clip, 0 if there is none.
    pub fn length(&self) -> usize {
        match self {
            Answer::Met { clip, .. } => clip.len(),
            _ => 0,
        }
    }

    /// The answer in a word or two.
    pub fn word(&self) -> String {
        match self {
            Answer::Met { .. } => "met".into(),
            Answer::None { .. } => "none".into(),
            Answer::Refused(NO_ROOM) => "no room".into(),
            Answer::Refused(number) => format!("refused {number}"),
        }
    }
}
