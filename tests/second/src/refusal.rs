//! Refusals.

use std::fmt;

/// A refusal: its number in document 01, and the place.
#[derive(Clone, Copy, Debug, PartialEq, Eq)]
pub struct Refusal {
    pub number: u8,
    pub place: usize,
}

/// As lines of answers have it.
impl fmt::Display for Refusal {
    fn fmt(&self, out: &mut fmt::Formatter) -> fmt::Result {
        write!(out, "refused {} {}", self.number, self.place)
    }
}

#[cfg(test)]
mod tests {
    use super::*;

    #[test]
    fn a_refusal_as_words() {
        let refusal = Refusal {
            number: 9,
            place: 64,
        };
        assert_eq!(refusal.to_string(), "refused 9 64");
    }
}
