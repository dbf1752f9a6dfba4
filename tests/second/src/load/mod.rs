//! Loading a rule from its bytes.

pub mod case;
pub mod cases;

use crate::formula::{Formula, Window};
use crate::limits::{LARGEST_BOUND, LARGEST_FLAG, MOST_ITEMS, MOST_LOWER, MOST_TIMED};
use crate::number;
use crate::refusal::Refusal;

/// A rule that is accepted.
#[derive(Clone, Debug, PartialEq, Eq)]
pub struct Rule {
    pub items: usize,
    pub horizon: usize,
    pub formula: Formula,
}

/// One item as its bytes say it, before anything is asked of its values.
#[derive(Clone, Copy, Debug, PartialEq, Eq)]
enum Item {
    True,
    False,
    Flag(usize),
    Not,
    And,
    Or,
    Until(Window),
    Release(Window),
    Eventually(Window),
    Globally(Window),
}

impl Item {
    fn window(self) -> Option<Window> {
        match self {
            Item::Until(w) | Item::Release(w) | Item::Eventually(w) | Item::Globally(w) => Some(w),
            _ => None,
        }
    }

    fn operands(self) -> usize {
        match self {
            Item::True | Item::False | Item::Flag(_) => 0,
            Item::Not | Item::Eventually(_) | Item::Globally(_) => 1,
            Item::And | Item::Or | Item::Until(_) | Item::Release(_) => 2,
        }
    }
}

/// Splits the first item off `bytes`, which hold at least one byte. Gives the
/// item and the bytes behind it, or the number of the refusal: 2, 3 or 4.
fn split(bytes: &[u8]) -> Result<(Item, &[u8]), u8> {
    let code = bytes[0];
    let rest = &bytes[1..];
    match code {
        0x10 => Ok((Item::True, rest)),
        0x11 => Ok((Item::False, rest)),
        0x12 => {
            let (flag, rest) = number::split(rest)?;
            Ok((Item::Flag(flag), rest))
        }
        0x20 => Ok((Item::Not, rest)),
        0x21 => Ok((Item::And, rest)),
        0x22 => Ok((Item::Or, rest)),
        0x30 => {
            let (window, rest) = split_window(rest)?;
            Ok((Item::Until(window), rest))
        }
        0x31 => {
            let (window, rest) = split_window(rest)?;
            Ok((Item::Release(window), rest))
        }
        0x32 => {
            let (window, rest) = split_window(rest)?;
            Ok((Item::Eventually(window), rest))
        }
        0x33 => {
            let (window, rest) = split_window(rest)?;
            Ok((Item::Globally(window), rest))
        }
        _ => Err(2),
    }
}

/// Splits the two numbers of a window off. The first is judged whole before
/// the second is read.
fn split_window(bytes: &[u8]) -> Result<(Window, &[u8]), u8> {
    let (a, rest) = number::split(bytes)?;
    let (b, rest) = number::split(rest)?;
    Ok((Window { a, b }, rest))
}

/// Takes the operands of an item from the top of the stack and gives the
/// formula that they make. The stack holds enough of them.
fn build(item: Item, stack: &mut Vec<Formula>) -> Formula {
    // The right operand lies on top of the left one.
    let mut take = || Box::new(stack.pop().expect("enough operands"));
    match item {
        Item::True => Formula::True,
        Item::False => Formula::False,
        Item::Flag(k) => Formula::Flag(k),
        Item::Not => Formula::Not(take()),
        Item::Eventually(w) => Formula::Eventually(w, take()),
        Item::Globally(w) => Formula::Globally(w, take()),
        Item::And => {
            let right = take();
            let left = take();
            Formula::And(left, right)
        }
        Item::Or => {
            let right = take();
            let left = take();
            Formula::Or(left, right)
        }
        Item::Until(w) => {
            let right = take();
            let left = take();
            Formula::Until(w, left, right)
        }
        Item::Release(w) => {
            let right = take();
            let left = take();
            Formula::Release(w, left, right)
        }
    }
}

/// Loads a rule, or says why not.
pub fn load(bytes: &[u8]) -> Result<Rule, Refusal> {
    if bytes.is_empty() {
        return Err(Refusal {
            number: 1,
            place: 0,
        });
    }

    let mut stack: Vec<Formula> = Vec::new();
    let mut items = 0;
    let mut timed = 0;
    let mut lower = 0;
    let mut rest = bytes;

    while !rest.is_empty() {
        let place = bytes.len() - rest.len();
        let refuse = |number| Refusal { number, place };

        // 2, 3, 4
        let (item, behind) = split(rest).map_err(refuse)?;

        // 5
        if let Item::Flag(k) = item {
            if k > LARGEST_FLAG {
                return Err(refuse(5));
            }
        }

        // 6
        if let Some(w) = item.window() {
            if w.a > w.b || w.b > LARGEST_BOUND {
                return Err(refuse(6));
            }
        }

        // 7
        if stack.len() < item.operands() {
            return Err(refuse(7));
        }

        // 8
        items += 1;
        if let Some(w) = item.window() {
            timed += 1;
            lower += w.a;
        }
        if items > MOST_ITEMS || timed > MOST_TIMED || lower > MOST_LOWER {
            return Err(refuse(8));
        }

        let formula = build(item, &mut stack);
        stack.push(formula);
        rest = behind;
    }

    // 9
    if stack.len() != 1 {
        return Err(Refusal {
            number: 9,
            place: bytes.len(),
        });
    }
    let formula = stack.remove(0);
    Ok(Rule {
        items,
        horizon: formula.horizon(),
        formula,
    })
}

#[cfg(test)]
mod tests {
    use super::*;
    use crate::entry::tests::answer_to;
    use crate::limits::LARGEST_HORIZON;
    use crate::text::{bytes, words_of_bytes};

    /// What loading a rule that is given as text answers.
    fn answer(text: &str) -> String {
        answer_to(&format!("load {text}"))
    }

    /// The same text several times over, with spaces between.
    fn times(text: &str, count: usize) -> String {
        vec![text; count].join(" ")
    }

    #[test]
    fn samples_of_01_that_are_accepted() {
        assert_eq!(answer("12 00"), "accepted 1 0");
        assert_eq!(answer("10"), "accepted 1 0");
        assert_eq!(answer("11"), "accepted 1 0");
        assert_eq!(answer("12 00 12 00 20 21"), "accepted 4 0");
        assert_eq!(answer("12 00 32 02 04"), "accepted 2 4");
        assert_eq!(answer("12 00 33 02 04"), "accepted 2 4");
        assert_eq!(answer("10 32 01 01"), "accepted 2 1");
        assert_eq!(
            answer("12 00 33 00 02 12 00 20 32 01 01 21"),
            "accepted 6 2"
        );
        assert_eq!(answer("12 00 33 01 03 32 02 04"), "accepted 3 7");
        assert_eq!(answer("12 00 32 00 ff 01"), "accepted 2 255");
        assert_eq!(answer("12 00 12 01 30 01 03"), "accepted 3 3");
    }

    #[test]
    fn samples_of_01_that_are_refused() {
        assert_eq!(answer("12 08"), "refused 5 0");
        assert_eq!(answer("12"), "refused 3 0");
        assert_eq!(answer("12 80 00"), "refused 4 0");
        assert_eq!(answer("12 00 32 04 02"), "refused 6 2");
        assert_eq!(answer("12 00 32 00 80 02"), "refused 6 2");
        assert_eq!(answer("21"), "refused 7 0");
        assert_eq!(answer("10 10"), "refused 9 2");
        assert_eq!(answer(""), "refused 1 0");
    }

    #[test]
    fn numbers_are_judged_one_by_one() {
        assert_eq!(answer("12 80"), "refused 3 0");
        assert_eq!(answer("12 80 80"), "refused 4 0");
        assert_eq!(answer("12 80 00"), "refused 4 0");
        assert_eq!(answer("32"), "refused 3 0");
        assert_eq!(answer("32 05"), "refused 3 0");
        assert_eq!(answer("32 80"), "refused 3 0");
        assert_eq!(answer("32 80 00"), "refused 4 0");
        assert_eq!(answer("32 80 80"), "refused 4 0");
        assert_eq!(answer("32 80 01"), "refused 3 0");
        assert_eq!(answer("32 05 80"), "refused 3 0");
        assert_eq!(answer("32 05 80 00"), "refused 4 0");
        assert_eq!(answer("32 05 ff ff"), "refused 4 0");
        assert_eq!(answer("10 20 32 05"), "refused 3 2");
    }

    #[test]
    fn an_item_is_judged_5_6_7_in_turn() {
        assert_eq!(answer("32 04 02"), "refused 6 0");
        assert_eq!(answer("32 02 04"), "refused 7 0");
        assert_eq!(answer("10 30 04 02"), "refused 6 1");
        assert_eq!(answer("10 30 02 04"), "refused 7 1");
        assert_eq!(answer("12 07"), "accepted 1 0");
        assert_eq!(answer("12 7f"), "refused 5 0");
        assert_eq!(answer("12 80 01"), "refused 5 0");
        assert_eq!(answer("12 ff 7f"), "refused 5 0");
        // The first fault in reading order decides.
        assert_eq!(answer("12 08 13"), "refused 5 0");
        assert_eq!(answer("10 10 13"), "refused 2 2");
        assert_eq!(answer("21 13"), "refused 7 0");
    }

    #[test]
    fn all_other_bytes_are_unknown_codes() {
        let known = [0x10, 0x11, 0x12, 0x20, 0x21, 0x22, 0x30, 0x31, 0x32, 0x33];
        for code in 0..=255u8 {
            let got = load(&[code]);
            if !known.contains(&code) {
                assert_eq!(
                    got,
                    Err(Refusal {
                        number: 2,
                        place: 0
                    })
                );
            } else {
                assert!(got.map_or_else(|r| r.number != 2, |_| true));
            }
        }
    }

    #[test]
    fn too_few_operands() {
        for code in ["20", "32 00 00", "33 00 00"] {
            assert_eq!(answer(code), "refused 7 0");
            assert_eq!(answer(&format!("10 {code}")), "accepted 2 0");
        }
        for code in ["21", "22", "30 00 00", "31 00 00"] {
            assert_eq!(answer(code), "refused 7 0");
            assert_eq!(answer(&format!("10 {code}")), "refused 7 1");
            assert_eq!(answer(&format!("10 11 {code}")), "accepted 3 0");
        }
    }

    #[test]
    fn bounds_at_their_edges() {
        for code in ["32", "33"] {
            assert_eq!(answer(&format!("10 {code} 7f 7f")), "accepted 2 127");
            assert_eq!(answer(&format!("10 {code} 7f 80 01")), "accepted 2 128");
            assert_eq!(answer(&format!("10 {code} 80 01 7f")), "refused 6 1");
            assert_eq!(answer(&format!("10 {code} ff 01 ff 01")), "accepted 2 255");
            assert_eq!(answer(&format!("10 {code} ff 01 80 02")), "refused 6 1");
            assert_eq!(answer(&format!("10 {code} 80 02 80 02")), "refused 6 1");
            assert_eq!(answer(&format!("10 {code} 80 02 ff 01")), "refused 6 1");
        }
    }

    #[test]
    fn as_many_items_as_may_be_and_not_more() {
        let good = format!("10 20*{}", MOST_ITEMS - 1);
        let refused = |number| format!("refused {number} {MOST_ITEMS}");
        assert_eq!(answer(&good), format!("accepted {MOST_ITEMS} 0"));
        assert_eq!(answer(&format!("{good} 20")), refused(8));
        assert_eq!(answer(&format!("10*{MOST_ITEMS}")), refused(9));
        assert_eq!(answer(&format!("10*{}", MOST_ITEMS + 1)), refused(8));
        // A bad item behind the last one gives its own refusal.
        assert_eq!(answer(&format!("{good} 13")), refused(2));
        assert_eq!(answer(&format!("{good} 12")), refused(3));
        assert_eq!(answer(&format!("{good} 12 80 00")), refused(4));
        assert_eq!(answer(&format!("{good} 12 08")), refused(5));
        assert_eq!(answer(&format!("{good} 32 04 02")), refused(6));
        assert_eq!(answer(&format!("{good} 21")), refused(7));
        assert_eq!(answer(&format!("{good} 12 00")), refused(8));
        // Nothing behind that one is looked at.
        assert_eq!(answer(&format!("{good} 20 13")), refused(8));
    }

    #[test]
    fn as_many_timed_items_as_may_be_and_not_more() {
        let good = format!("10 {}", times("32 00 01", MOST_TIMED));
        let end = 1 + 3 * MOST_TIMED;
        let accepted = |more| format!("accepted {} {MOST_TIMED}", 1 + MOST_TIMED + more);
        let refused = |number, place| format!("refused {number} {place}");
        assert_eq!(answer(&good), accepted(0));
        assert_eq!(answer(&format!("{good} 20")), accepted(1));
        for code in ["32", "33"] {
            assert_eq!(answer(&format!("{good} {code} 00 01")), refused(8, end));
            assert_eq!(answer(&format!("{good} {code} 01 00")), refused(6, end));
            assert_eq!(answer(&format!("{good} {code} 01")), refused(3, end));
        }
        for code in ["30", "31"] {
            assert_eq!(answer(&format!("{good} {code} 00 01")), refused(7, end));
            let two = format!("{good} 10 {code} 00 01");
            assert_eq!(answer(&two), refused(8, end + 1));
        }
        let long = format!("10 {}", times("32 00 ff 01", MOST_TIMED));
        let items = 1 + MOST_TIMED;
        assert_eq!(answer(&long), format!("accepted {items} {LARGEST_HORIZON}"));
    }

    /// `eventually[a,a]`, whatever a is.
    fn later(a: usize) -> String {
        let mut number = Vec::new();
        number::write(a, &mut number);
        let number = words_of_bytes(&number);
        format!("32 {number} {number}")
    }

    /// Asserts that lower bounds may be these, one of them more than once, and that
    /// the last may not be one more.
    fn lowers_are_the_most(first: usize, times: usize, last: usize) {
        assert_eq!(first * times + last, MOST_LOWER);
        let before = format!("10 {}", self::times(&later(first), times));
        let good = format!("{before} {}", later(last));
        let bad = format!("{before} {}", later(last + 1));
        let items = times + 2;
        assert_eq!(answer(&good), format!("accepted {items} {MOST_LOWER}"));
        assert_eq!(
            answer(&format!("{good} 20")),
            format!("accepted {} {MOST_LOWER}", items + 1)
        );
        assert_eq!(answer(&bad), format!("refused 8 {}", bytes(&before).len()));
        // The sum is over all timed items, not along a branch.
        let horizon = last.max(first * times);
        let accepted = format!("accepted {} {horizon}", items + 2);
        let beside = |last| format!("{before} 10 {} 21", later(last));
        assert_eq!(answer(&beside(last)), accepted);
        let place = bytes(&before).len() + 1;
        assert_eq!(answer(&beside(last + 1)), format!("refused 8 {place}"));
    }

    #[test]
    fn lower_bounds_add_up_to_at_most_their_sum() {
        let times = MOST_LOWER / LARGEST_BOUND;
        lowers_are_the_most(LARGEST_BOUND, times, MOST_LOWER - times * LARGEST_BOUND);
        lowers_are_the_most(MOST_LOWER / 4, 3, MOST_LOWER / 4);
        let equal = MOST_LOWER / MOST_TIMED;
        lowers_are_the_most(equal, MOST_TIMED - 1, equal);
    }

    #[test]
    fn the_tree_has_left_and_right_in_place() {
        let rule = load(&bytes("12 00 12 01 30 01 03 12 02 22")).unwrap();
        let until = Formula::Until(
            Window { a: 1, b: 3 },
            Box::new(Formula::Flag(0)),
            Box::new(Formula::Flag(1)),
        );
        assert_eq!(
            rule.formula,
            Formula::Or(Box::new(until), Box::new(Formula::Flag(2)))
        );
        assert_eq!((rule.items, rule.horizon), (5, 3));
    }

    #[test]
    fn horizons_add_along_a_branch_and_take_the_largest_operand() {
        // The larger operand on either side.
        assert_eq!(answer("12 00 32 00 05 12 01 21"), "accepted 4 5");
        assert_eq!(answer("12 01 12 00 32 00 05 22"), "accepted 4 5");
        assert_eq!(answer("12 00 32 00 05 12 01 30 01 03"), "accepted 4 8");
        assert_eq!(answer("12 01 12 00 32 00 05 31 01 03"), "accepted 4 8");
        assert_eq!(
            answer("12 00 32 00 05 12 00 33 02 07 30 01 03 20"),
            "accepted 6 10"
        );
    }
}
