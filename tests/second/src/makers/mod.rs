//! The makers, which make new rules from rules: negate appends `20`; both and
//! either append `21` or `22` after the first and then the second rule; next
//! appends `33 01 01`.

pub mod case;
pub mod cases;

use crate::load::load;
use crate::refusal::Refusal;

#[derive(Clone, Copy, Debug, PartialEq, Eq)]
pub enum Maker {
    Negate,
    Next,
    Both,
    Either,
}

/// All makers.
pub const MAKERS: [Maker; 4] = [Maker::Negate, Maker::Next, Maker::Both, Maker::Either];

impl Maker {
    /// Whether there is a second rule.
    pub fn takes_two(self) -> bool {
        match self {
            Maker::Negate | Maker::Next => false,
            Maker::Both | Maker::Either => true,
        }
    }

    /// What stands behind the rules.
    fn appended(self) -> &'static [u8] {
        match self {
            Maker::Negate => &[0x20],
            Maker::Next => &[0x33, 0x01, 0x01],
            Maker::Both => &[0x21],
            Maker::Either => &[0x22],
        }
    }

    /// The new bytes. Without a second rule that one is not asked about.
    pub fn new_bytes(self, first: &[u8], second: &[u8]) -> Vec<u8> {
        let second = if self.takes_two() { second } else { &[] };
        [first, second, self.appended()].concat()
    }
}

/// Which of the three was refused.
#[derive(Clone, Copy, Debug, PartialEq, Eq)]
pub enum Which {
    First,
    Second,
    New,
}

/// A maker's refusal: which bytes were refused, the number in document 01, and the
/// place in those bytes.
#[derive(Clone, Copy, Debug, PartialEq, Eq)]
pub struct Refused {
    pub which: Which,
    pub number: u8,
    pub place: usize,
}

/// What a maker answers: the length of the new bytes, or its refusal.
pub type Made = Result<usize, Refused>;

/// Makes a rule: the first rule, the second rule, then the new bytes as a rule,
/// then 16. It writes the new bytes from the buffer's first byte on, and nothing
/// if it refuses.
pub fn make(maker: Maker, first: &[u8], second: &[u8], buffer: &mut [u8]) -> Made {
    accepted(Which::First, first)?;
    if maker.takes_two() {
        accepted(Which::Second, second)?;
    }
    let bytes = maker.new_bytes(first, second);
    accepted(Which::New, &bytes)?;
    if buffer.len() < bytes.len() {
        return Err(Refused {
            which: Which::New,
            number: 16,
            place: 0,
        });
    }
    buffer[..bytes.len()].copy_from_slice(&bytes);
    Ok(bytes.len())
}

/// Asks whether some of the bytes are a rule.
fn accepted(which: Which, bytes: &[u8]) -> Result<(), Refused> {
    let refused = |Refusal { number, place }| Refused {
        which,
        number,
        place,
    };
    load(bytes).map(|_| ()).map_err(refused)
}

#[cfg(test)]
mod tests {
    use super::*;
    use crate::formula::{write, Formula};
    use crate::limits::{LARGEST_BOUND, MOST_ITEMS, MOST_LOWER, MOST_TIMED};
    use crate::meaning::verdicts;
    use crate::number;
    use crate::random::rule::{formula, Budget};
    use crate::random::Random;
    use crate::text::bytes;

    /// Makes a rule in a buffer that is long enough.
    fn made(maker: Maker, first: &[u8], second: &[u8]) -> Result<Vec<u8>, Refused> {
        let mut buffer = vec![0; first.len() + second.len() + 3];
        let length = make(maker, first, second, &mut buffer)?;
        buffer.truncate(length);
        Ok(buffer)
    }

    fn makes(maker: Maker, first: &str, second: &str, expected: &str) {
        let new = made(maker, &bytes(first), &bytes(second));
        assert_eq!(new, Ok(bytes(expected)));
    }

    fn refuses(maker: Maker, first: &[u8], second: &[u8], which: Which, number: u8, place: usize) {
        let refused = Refused {
            which,
            number,
            place,
        };
        assert_eq!(made(maker, first, second), Err(refused));
        // Where something else is refused, the buffer may be too short too.
        assert_eq!(make(maker, first, second, &mut []), Err(refused));
    }

    #[test]
    fn each_maker_appends_its_bytes() {
        makes(Maker::Negate, "12 00", "", "12 00 20");
        makes(Maker::Next, "12 00", "", "12 00 33 01 01");
        makes(Maker::Both, "12 00", "12 01", "12 00 12 01 21");
        makes(Maker::Either, "12 00", "12 01", "12 00 12 01 22");
        makes(Maker::Both, "12 01 20", "10", "12 01 20 10 21");
    }

    #[test]
    fn makers_of_one_rule_do_not_ask_about_a_second() {
        for second in [&[][..], &[0x10], &[0x13]] {
            assert_eq!(made(Maker::Negate, &[0x10], second), Ok(bytes("10 20")));
            let next = bytes("10 33 01 01");
            assert_eq!(made(Maker::Next, &[0x10], second), Ok(next));
        }
    }

    #[test]
    fn the_first_rule_then_the_second_then_the_new_bytes() {
        for maker in MAKERS {
            refuses(maker, &[], &[], Which::First, 1, 0);
            refuses(maker, &bytes("10 10"), &[0x13], Which::First, 9, 2);
        }
        for maker in [Maker::Both, Maker::Either] {
            refuses(maker, &[0x10], &[], Which::Second, 1, 0);
            refuses(maker, &[0x10], &bytes("10 12 08"), Which::Second, 5, 1);
            // Together they would be a rule.
            refuses(maker, &bytes("10 10 21"), &[0x20], Which::Second, 7, 0);
            refuses(maker, &bytes("10 10"), &[0x21], Which::First, 9, 2);
        }
    }

    #[test]
    fn the_new_bytes_are_within_the_limit_on_items() {
        let nots = |items: usize| [&[0x10], &vec![0x20; items - 1][..]].concat();
        let (most, half) = (MOST_ITEMS, MOST_ITEMS / 2);
        for maker in [Maker::Negate, Maker::Next] {
            assert!(made(maker, &nots(most - 1), &[]).is_ok());
            refuses(maker, &nots(most), &[], Which::New, 8, most);
        }
        for maker in [Maker::Both, Maker::Either] {
            assert!(made(maker, &nots(half - 1), &nots(half)).is_ok());
            // The operator is one too many.
            refuses(maker, &nots(half), &nots(half), Which::New, 8, most);
            let two = bytes("12 07");
            refuses(maker, &nots(most - 1), &two, Which::New, 8, most + 1);
            // The last or the first item of the second rule is.
            refuses(maker, &nots(half), &nots(half + 1), Which::New, 8, most);
            let three = bytes("12 07 20");
            refuses(maker, &nots(most), &three, Which::New, 8, most);
        }
    }

    #[test]
    fn the_new_bytes_are_within_the_limit_on_timed_items() {
        let timed = |items: usize| [&[0x10][..], &[0x32, 0, 0].repeat(items)].concat();
        let (most, part) = (MOST_TIMED, MOST_TIMED / 4);
        let end = timed(most).len();
        assert!(made(Maker::Next, &timed(most - 1), &[]).is_ok());
        assert!(made(Maker::Negate, &timed(most), &[]).is_ok());
        refuses(Maker::Next, &timed(most), &[], Which::New, 8, end);
        assert!(made(Maker::Both, &timed(part), &timed(most - part)).is_ok());
        let one = timed(1);
        refuses(Maker::Either, &timed(most), &one, Which::New, 8, end + 1);
        for (maker, first, second) in [
            (Maker::Both, part, most - part + 1),
            (Maker::Either, most - part, most - part),
        ] {
            let (first, second) = (timed(first), timed(second));
            refuses(maker, &first, &second, Which::New, 8, end + 1);
        }
    }

    /// Timed items that follow each other, with these lower bounds.
    fn later(lowers: &[usize]) -> Vec<u8> {
        let mut rule = vec![0x10];
        for &a in lowers {
            rule.push(0x32);
            number::write(a, &mut rule);
            number::write(LARGEST_BOUND, &mut rule);
        }
        rule
    }

    #[test]
    fn the_new_bytes_are_within_the_limit_on_lower_bounds() {
        let part = MOST_LOWER / 4;
        let full = later(&[part; 4]);
        assert_eq!(load(&full).unwrap().formula.lower(), MOST_LOWER);
        let but_one = later(&[part, part, part, part - 1]);
        assert!(made(Maker::Next, &but_one, &[]).is_ok());
        refuses(Maker::Next, &full, &[], Which::New, 8, full.len());
        let rest = later(&[part; 3]);
        assert!(made(Maker::Both, &later(&[part]), &rest).is_ok());
        // The last item of the second rule, or its only one.
        let first = later(&[part + 1]);
        let place = first.len() + later(&[part; 2]).len();
        refuses(Maker::Both, &first, &rest, Which::New, 8, place);
        let place = full.len() + 1;
        refuses(Maker::Either, &full, &later(&[1]), Which::New, 8, place);
        assert!(made(Maker::Either, &full, &later(&[0])).is_ok());
    }

    #[test]
    fn a_buffer_that_is_too_short_stays() {
        for maker in MAKERS {
            let (first, second) = (bytes("12 00 20"), [0x10]);
            let new = maker.new_bytes(&first, &second);
            for room in 0..new.len() + 4 {
                let mut buffer = vec![9; room];
                let answer = make(maker, &first, &second, &mut buffer);
                if room < new.len() {
                    let refused = Refused {
                        which: Which::New,
                        number: 16,
                        place: 0,
                    };
                    assert_eq!(answer, Err(refused));
                    assert_eq!(buffer, vec![9; room]);
                } else {
                    assert_eq!(answer, Ok(new.len()));
                    assert_eq!(buffer[..new.len()], new);
                    assert_eq!(buffer[new.len()..], vec![9; room - new.len()]);
                }
            }
        }
    }

    /// A new rule's formula has its rules' formulas as its operands, and says of
    /// each frame what the maker's name says.
    #[test]
    fn a_new_rule_means_what_its_maker_says() {
        let mut random = Random::new(1);
        for _ in 0..2_000 {
            let mut small = || {
                let mut budget = Budget {
                    timed: 4,
                    lower: 12,
                    bound: 3,
                    flag: 1,
                };
                let items = random.between(1, 9);
                formula(&mut random, items, &mut budget)
            };
            let (f, g): (Formula, Formula) = (small(), small());
            let frames = random.between(1, 8);
            let clip: Vec<u8> = (0..frames).map(|_| random.below(4) as u8).collect();
            let (left, right) = (verdicts(&f, &clip), verdicts(&g, &clip));
            for maker in MAKERS {
                let new = load(&made(maker, &write(&f), &write(&g)).unwrap()).unwrap();
                assert_eq!(new.formula.operands()[0], &f);
                for (i, verdict) in verdicts(&new.formula, &clip).into_iter().enumerate() {
                    let expected = match maker {
                        Maker::Negate => !left[i],
                        Maker::Next => *left.get(i + 1).unwrap_or(&true),
                        Maker::Both => left[i] && right[i],
                        Maker::Either => left[i] || right[i],
                    };
                    assert_eq!(verdict, expected, "{maker:?} {f:?} {g:?} {clip:?}");
                }
            }
        }
    }
}
