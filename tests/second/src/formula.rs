//! Formulas as trees, and as rule bytes.

use crate::number;

/// The first and the last place of a timed item's window.
#[derive(Clone, Copy, Debug, PartialEq, Eq)]
pub struct Window {
    pub a: usize,
    pub b: usize,
}

/// A formula. Of two operands the first is the left one.
#[derive(Clone, Debug, PartialEq, Eq)]
pub enum Formula {
    True,
    False,
    Flag(usize),
    Not(Box<Formula>),
    And(Box<Formula>, Box<Formula>),
    Or(Box<Formula>, Box<Formula>),
    Until(Window, Box<Formula>, Box<Formula>),
    Release(Window, Box<Formula>, Box<Formula>),
    Eventually(Window, Box<Formula>),
    Globally(Window, Box<Formula>),
}

impl Formula {
    /// The operands, left to right.
    pub fn operands(&self) -> Vec<&Formula> {
        match self {
            Formula::True | Formula::False | Formula::Flag(_) => vec![],
            Formula::Not(f) | Formula::Eventually(_, f) | Formula::Globally(_, f) => vec![f],
            Formula::And(l, r)
            | Formula::Or(l, r)
            | Formula::Until(_, l, r)
            | Formula::Release(_, l, r) => vec![l, r],
        }
    }

    /// The window, if the formula is of a timed kind.
    pub fn window(&self) -> Option<Window> {
        match self {
            Formula::Until(w, _, _)
            | Formula::Release(w, _, _)
            | Formula::Eventually(w, _)
            | Formula::Globally(w, _) => Some(*w),
            _ => None,
        }
    }

    /// How many items the formula is written with.
    pub fn items(&self) -> usize {
        1 + self.operands().iter().map(|f| f.items()).sum::<usize>()
    }

    /// How many of its items are timed.
    pub fn timed(&self) -> usize {
        let own = usize::from(self.window().is_some());
        own + self.operands().iter().map(|f| f.timed()).sum::<usize>()
    }

    /// The sum of all lower bounds.
    pub fn lower(&self) -> usize {
        let own = self.window().map_or(0, |w| w.a);
        own + self.operands().iter().map(|f| f.lower()).sum::<usize>()
    }

    /// The horizon: the upper bound, if there is one, plus the largest horizon
    /// of an operand.
    pub fn horizon(&self) -> usize {
        let own = self.window().map_or(0, |w| w.b);
        let largest = self.operands().iter().map(|f| f.horizon()).max();
        own + largest.unwrap_or(0)
    }
}

/// The bytes of a formula: operands before operators, the left one first,
/// numbers in their shortest form. Limits are not asked about.
pub fn write(f: &Formula) -> Vec<u8> {
    let mut out = Vec::new();
    append(f, &mut out);
    out
}

fn append(f: &Formula, out: &mut Vec<u8>) {
    for operand in f.operands() {
        append(operand, out);
    }
    match f {
        Formula::True => out.push(0x10),
        Formula::False => out.push(0x11),
        Formula::Flag(k) => {
            out.push(0x12);
            number::write(*k, out);
        }
        Formula::Not(_) => out.push(0x20),
        Formula::And(_, _) => out.push(0x21),
        Formula::Or(_, _) => out.push(0x22),
        Formula::Until(w, _, _) => timed(0x30, *w, out),
        Formula::Release(w, _, _) => timed(0x31, *w, out),
        Formula::Eventually(w, _) => timed(0x32, *w, out),
        Formula::Globally(w, _) => timed(0x33, *w, out),
    }
}

fn timed(code: u8, w: Window, out: &mut Vec<u8>) {
    out.push(code);
    number::write(w.a, out);
    number::write(w.b, out);
}

#[cfg(test)]
mod tests {
    use super::*;
    use crate::load::{load, Rule};
    use crate::random::rule::good_formula;
    use crate::random::Random;
    use crate::text::bytes;

    #[test]
    fn known_rules_are_written_back() {
        for text in [
            "10",
            "11",
            "12 07",
            "12 00 12 00 20 21",
            "12 00 33 00 02 12 00 20 32 01 01 21",
            "12 00 12 01 30 01 03",
            "12 00 12 01 31 7f 80 01 12 02 22",
            "12 00 32 00 ff 01",
        ] {
            let bytes = bytes(text);
            assert_eq!(write(&load(&bytes).unwrap().formula), bytes);
        }
    }

    #[test]
    fn loading_what_is_written_gives_the_formula() {
        let mut random = Random::new(1);
        for _ in 0..10_000 {
            let formula = good_formula(&mut random);
            let loaded = load(&write(&formula)).unwrap();
            let expected = Rule {
                items: formula.items(),
                horizon: formula.horizon(),
                formula,
            };
            assert_eq!(loaded, expected);
        }
    }
}
