//! The word that each function of the library answers with. Its lowest byte is the
//! refusal's number, 0 where there is none. Each entry says what else its words hold;
//! they are read by the header's accessors.

use archive::word;
use second::refusal::Refusal;

/// A number in so many bits of a word, from one on.
pub fn put(number: usize, from: u32, bits: u32) -> u64 {
    let number = number as u64;
    assert!(number >> bits == 0, "{number} in {bits} bits");
    number << from
}

/// A refusal's number, and its place in bits 8 to 39.
pub fn of_refusal(refusal: Refusal) -> u64 {
    u64::from(refusal.number) | put(refusal.place, 8, 32)
}

/// The refusal of a word, if there is one.
pub fn refusal(word: u64) -> Option<Refusal> {
    let refusal = Refusal {
        number: word::refusal(word),
        place: word::place(word),
    };
    (refusal.number > 0).then_some(refusal)
}

/// What a word says, by its refusal or by what it holds else; none if it is not the
/// word of that.
pub fn read<T: Copy>(
    word: u64,
    held: fn(u64) -> T,
    of: fn(Result<T, Refusal>) -> u64,
) -> Option<Result<T, Refusal>> {
    let said = match refusal(word) {
        Some(refusal) => Err(refusal),
        None => Ok(held(word)),
    };
    (of(said) == word).then_some(said)
}

#[cfg(test)]
pub mod tests {
    use super::*;

    /// A refusal and its word.
    pub const REFUSAL: Refusal = Refusal {
        number: 8,
        place: 0x1234,
    };
    pub const REFUSED: u64 = 0x12_3408;
    /// The same in the second rule of a maker.
    pub const REFUSED_IN_SECOND: u64 = 0x0200_0012_3408;

    #[test]
    fn words_of_refusals() {
        assert_eq!(of_refusal(REFUSAL), REFUSED);
        assert_eq!(refusal(REFUSED), Some(REFUSAL));
        assert_eq!(refusal(0x12_3400), None);
    }

    #[test]
    #[should_panic(expected = "in 16 bits")]
    fn a_number_that_does_not_fit_is_no_word() {
        put(65_536, 8, 16);
    }
}
