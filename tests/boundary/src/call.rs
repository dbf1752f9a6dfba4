//! A call of a function of the archive. The second program answers the same call by
//! its own functions, on buffers that hold the same.

use crate::lent::{patterned, Layout, Lent};
use second::entry::Case;

/// What a buffer holds before the call.
pub enum Before<'a> {
    /// These bytes, which are read.
    Read(&'a [u8]),
    /// These bytes, which may be written. So that each byte that is written shows,
    /// they are a pattern where the two programs are compared.
    Written(&'a [u8]),
    /// This byte, so many times. Where the two programs are compared, only 00 and ff
    /// are as they are: in a table, zeros are more like records than a pattern is, and
    /// ff are the largest numbers of records. Any other byte stands for a pattern.
    Full(u8, usize),
    /// So many bytes of a pattern.
    Room(usize),
}

/// A function and its buffers, in this order.
pub trait Call<const BUFFERS: usize> {
    /// The buffers before the call.
    fn before(&self) -> [Before<'_>; BUFFERS];

    /// The word that the library answers, which works on these buffers.
    fn by_library(&self, buffers: &mut [Lent; BUFFERS]) -> u64;

    /// The word that the library has to answer, by the second program, which works on
    /// these buffers.
    fn by_second(&self, buffers: &mut [Lent; BUFFERS]) -> u64;

    /// The call in words.
    fn words(&self) -> String;
}

/// A case that is one call.
pub trait Called<const BUFFERS: usize>: Call<BUFFERS> + Case {
    /// The answer, as a line without its end, by the word and the buffers after the
    /// call; none if no answer has such a word.
    fn said(&self, word: u64, buffers: &[Lent; BUFFERS]) -> Option<String>;
}

/// What a call comes to: the word, and all buffers after it.
#[derive(PartialEq, Eq)]
pub struct Outcome<const BUFFERS: usize> {
    pub word: u64,
    pub buffers: [Lent; BUFFERS],
}

/// The buffers before a call. How they are laid out goes by the call's number.
pub fn lent<const BUFFERS: usize>(
    call: &impl Call<BUFFERS>,
    number: usize,
    lay: Layout,
) -> [Lent; BUFFERS] {
    // No two buffers have one turn, and a pattern is not that of the guards.
    let mut turn = 8 * number as u64;
    call.before().map(|before| {
        let lent = match before {
            Before::Read(bytes) => lay(bytes, turn),
            Before::Full(byte @ (0x00 | 0xff), length) => lay(&vec![byte; length], turn),
            Before::Written(_) | Before::Full(..) | Before::Room(_) => {
                lay(&patterned(turn + 1, before.length()), turn)
            }
        };
        turn += 2;
        lent
    })
}

/// The library's answer to the case of a line.
pub fn answer<C: Called<BUFFERS>, const BUFFERS: usize>(line: &str) -> Result<String, String> {
    let case = C::of_line(line)?;
    let mut turn = 0;
    let mut buffers = case.before().map(|before| {
        turn += 1;
        match before {
            Before::Read(bytes) | Before::Written(bytes) => Lent::new(bytes, turn),
            Before::Full(byte, length) => Lent::new(&vec![byte; length], turn),
            Before::Room(length) => Lent::new(&patterned(0, length), turn),
        }
    });
    let word = case.by_library(&mut buffers);
    let said = case.said(word, &buffers);
    Ok(said.unwrap_or_else(|| format!("word {word:016x}")))
}

impl Before<'_> {
    fn length(&self) -> usize {
        match self {
            Before::Read(bytes) | Before::Written(bytes) => bytes.len(),
            Before::Full(_, length) | Before::Room(length) => *length,
        }
    }
}

#[cfg(test)]
mod tests {
    use super::*;

    struct Four;

    impl Call<4> for Four {
        fn before(&self) -> [Before<'_>; 4] {
            [
                Before::Read(&[1, 2, 3]),
                Before::Written(&[1, 2, 3]),
                Before::Full(0xff, 3),
                Before::Full(0xa5, 3),
            ]
        }

        fn by_library(&self, _: &mut [Lent; 4]) -> u64 {
            0
        }

        fn by_second(&self, _: &mut [Lent; 4]) -> u64 {
            0
        }

        fn words(&self) -> String {
            String::new()
        }
    }

    #[test]
    fn what_is_written_is_a_pattern_before() {
        for number in 0..9 {
            let buffers = lent(&Four, number, Lent::new);
            let [read, written, full, other] = buffers.each_ref().map(|lent| lent.bytes());
            assert_eq!(read, [1, 2, 3]);
            assert_eq!(full, [0xff; 3]);
            for bytes in [written, other] {
                assert!(bytes.iter().all(|&byte| byte >= 0x80));
                assert_ne!(bytes, [0xa5; 3]);
            }
            assert_ne!(written, other);
        }
    }
}
