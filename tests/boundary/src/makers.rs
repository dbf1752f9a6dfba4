//! The makers.

use crate::call::{answer, Before, Call, Called};
use crate::compare::List;
use crate::entry::Entry;
use crate::lent::{of_one, of_two, Lent};
use crate::word::{of_refusal, put, refusal};
use archive::{
    thistlecart_both, thistlecart_either, thistlecart_negate, thistlecart_next, word, OfOne, OfTwo,
};
use second::entry::Case;
use second::makers::case::{answer_line, Make};
use second::makers::{make, Made, Maker, Refused, Which};
use second::refusal::Refusal;

pub const ENTRY: Entry = Entry {
    verbs: Make::VERBS,
    answer: answer::<Make, 3>,
    lists: &[
        List {
            name: "make",
            least: 30_000,
            long: false,
            compare: |list, seed, all| all.calls(list, Make::cases(seed)),
        },
        List {
            name: "make twice",
            least: 16_000,
            long: false,
            compare: |list, seed, all| all.calls(list, twices(seed)),
        },
    ],
};

/// A maker's function.
enum Function {
    OfOne(OfOne),
    OfTwo(OfTwo),
}

fn function(maker: Maker) -> Function {
    match maker {
        Maker::Negate => Function::OfOne(thistlecart_negate),
        Maker::Next => Function::OfOne(thistlecart_next),
        Maker::Both => Function::OfTwo(thistlecart_both),
        Maker::Either => Function::OfTwo(thistlecart_either),
    }
}

impl Call<3> for Make {
    /// The first rule, the second rule, the output buffer.
    fn before(&self) -> [Before<'_>; 3] {
        [
            Before::Read(&self.first),
            Before::Read(&self.second),
            Before::Written(&self.buffer),
        ]
    }

    /// A maker of one rule is not given the second.
    fn by_library(&self, [first, second, out]: &mut [Lent; 3]) -> u64 {
        match function(self.maker) {
            Function::OfOne(function) => of_one(function, first, out),
            Function::OfTwo(function) => of_two(function, first, second, out),
        }
    }

    fn by_second(&self, [first, second, out]: &mut [Lent; 3]) -> u64 {
        of_made(make(
            self.maker,
            first.bytes(),
            second.bytes(),
            out.bytes_mut(),
        ))
    }

    fn words(&self) -> String {
        self.line()
    }
}

impl Called<3> for Make {
    fn said(&self, word: u64, [_, _, out]: &[Lent; 3]) -> Option<String> {
        made(word).map(|made| answer_line(made, out.bytes()))
    }
}

/// A maker of two rules on one rule twice, in one buffer.
struct Twice {
    maker: Maker,
    function: OfTwo,
    rule: Vec<u8>,
    room: usize,
}

/// The makers of two rules on the first rule of each case twice. The room is as much
/// longer or shorter than the new bytes as in the case.
fn twices(seed: u64) -> Vec<Twice> {
    let twice = |case: Make| match function(case.maker) {
        Function::OfOne(_) => None,
        Function::OfTwo(function) => Some(Twice {
            maker: case.maker,
            function,
            room: (case.buffer.len() + case.first.len()).saturating_sub(case.second.len()),
            rule: case.first,
        }),
    };
    Make::cases(seed).into_iter().filter_map(twice).collect()
}

impl Call<2> for Twice {
    /// The one buffer that is the first rule and the second, the output buffer.
    fn before(&self) -> [Before<'_>; 2] {
        [Before::Read(&self.rule), Before::Room(self.room)]
    }

    fn by_library(&self, [rule, out]: &mut [Lent; 2]) -> u64 {
        let (pointer, length) = (rule.pointer(), rule.length());
        // Both rules are one buffer, and are only read.
        unsafe {
            (self.function)(
                pointer,
                length,
                pointer,
                length,
                out.pointer(),
                out.length(),
            )
        }
    }

    fn by_second(&self, [rule, out]: &mut [Lent; 2]) -> u64 {
        of_made(make(
            self.maker,
            rule.bytes(),
            rule.bytes(),
            out.bytes_mut(),
        ))
    }

    fn words(&self) -> String {
        let case = Make {
            maker: self.maker,
            first: self.rule.clone(),
            second: self.rule.clone(),
            buffer: vec![0; self.room],
        };
        format!("{}, both rules in one buffer", case.line())
    }
}

/// What a maker answers: the length in bits 8 and up, or beside the refusal which
/// bytes were refused, in bits 40 and up.
fn of_made(made: Made) -> u64 {
    match made {
        Ok(length) => put(length, 8, 56),
        Err(Refused {
            which,
            number,
            place,
        }) => {
            let which = match which {
                Which::First => 1,
                Which::Second => 2,
                Which::New => 3,
            };
            of_refusal(Refusal { number, place }) | put(which, 40, 24)
        }
    }
}

/// What a word says of a maker, or none if it is the word of no answer.
fn made(word: u64) -> Option<Made> {
    let made = match refusal(word) {
        None => Ok(word::length(word)),
        Some(Refusal { number, place }) => Err(Refused {
            which: match word::which(word) {
                1 => Which::First,
                2 => Which::Second,
                3 => Which::New,
                _ => return None,
            },
            number,
            place,
        }),
    };
    (of_made(made) == word).then_some(made)
}

#[cfg(test)]
mod tests {
    use super::*;
    use crate::word::tests::{REFUSAL, REFUSED, REFUSED_IN_SECOND};

    #[test]
    fn words_of_makers() {
        let refused = |which| {
            let Refusal { number, place } = REFUSAL;
            Err(Refused {
                which,
                number,
                place,
            })
        };
        for (made, word) in [
            (Ok(5), 0x500),
            (refused(Which::First), 0x0100_0012_3408),
            (refused(Which::Second), REFUSED_IN_SECOND),
            (refused(Which::New), 0x0300_0012_3408),
        ] {
            assert_eq!(of_made(made), word);
            assert_eq!(super::made(word), Some(made));
        }
        assert_eq!(made(REFUSED), None);
        assert_eq!(made(0x0400_0012_3408), None);
    }
}
