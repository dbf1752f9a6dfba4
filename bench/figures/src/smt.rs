//! A rule as SMT-LIB, after document 002's section 4.3 on MLTL-to-SMT. The script is
//! satisfiable exactly if a clip of one frame or more satisfies the rule.
//!
//! What is written is `fol(φ, k, len)` as the section defines it, with one
//! `define-fun` for each subformula that is left, of the place k and the clip's length
//! len. A flag is an uninterpreted function from places to Bool. As in the paper the
//! formula is first brought to not, and, until, with true and flags. By the definition
//! `fol(φ, k, len)` implies k < len, for each φ; so the clip has a frame, and the
//! places i of an until are within the clip, as section 2 of the paper wants. A double
//! negation is left out, as `fol` implies k < len.
//!
//! Where the section's SMT-LIB text and its definition differ, the definition decides:
//!
//! - The printed bound `(>= i (+ b k))` of until is `(<= i (+ b k))`, the printed
//!   `S(fol(φ, k))` and `(f_φ 0)` lack len, and the left operand is meant where
//!   `ψ1` is printed.
//! - Example 1 leaves len out altogether, so that its clip has no end. Then globally
//!   would want frames past the end of the clip: `G[1,1] p and G[1,1] not p` is
//!   satisfied by a clip of one frame, and has no model in that form.
//! - Example 1 writes eventually without the quantifier for the left operand, which is
//!   true. So it is here: `fol(true, j, len)` is j < len, and j < i < len.
//! - `exists len` of the one assertion is a constant here, which is the same.

use second::formula::{Formula, Window};
use second::limits::LARGEST_FLAG;
use std::fmt::Write;

/// A formula by not, and, until.
enum Core {
    True,
    Flag(usize),
    Not(Box<Core>),
    And(Box<Core>, Box<Core>),
    Until(Window, Box<Core>, Box<Core>),
}

/// The negation, without a double one.
fn not(f: Core) -> Core {
    match f {
        Core::Not(f) => *f,
        f => Core::Not(Box::new(f)),
    }
}

fn and(l: Core, r: Core) -> Core {
    Core::And(Box::new(l), Box::new(r))
}

fn until(w: Window, l: Core, r: Core) -> Core {
    Core::Until(w, Box::new(l), Box::new(r))
}

/// A formula by not, and, until, as section 2 of the paper equates the others.
fn core(f: &Formula) -> Core {
    match f {
        Formula::True => Core::True,
        Formula::False => not(Core::True),
        Formula::Flag(k) => Core::Flag(*k),
        Formula::Not(f) => not(core(f)),
        Formula::And(l, r) => and(core(l), core(r)),
        Formula::Or(l, r) => not(and(not(core(l)), not(core(r)))),
        Formula::Until(w, l, r) => until(*w, core(l), core(r)),
        Formula::Release(w, l, r) => not(until(*w, not(core(l)), not(core(r)))),
        Formula::Eventually(w, f) => until(*w, Core::True, core(f)),
        Formula::Globally(w, f) => not(until(*w, Core::True, not(core(f)))),
    }
}

/// A script with so many functions defined.
struct Script {
    text: String,
    functions: usize,
}

impl Script {
    fn line(&mut self, line: &str) {
        writeln!(self.text, "{line}").expect("a string takes a line");
    }

    /// Defines the function of a formula, after those of its operands, and gives its
    /// name.
    fn define(&mut self, f: &Core) -> String {
        let body = match f {
            Core::True => "(> len k)".into(),
            Core::Flag(p) => format!("(and (> len k) (p_{p} k))"),
            Core::Not(f) => {
                let f = self.define(f);
                format!("(and (> len k) (not ({f} k len)))")
            }
            Core::And(l, r) => {
                let (l, r) = (self.define(l), self.define(r));
                format!("(and ({l} k len) ({r} k len))")
            }
            Core::Until(w, l, r) => self.until(*w, l, r),
        };
        let name = format!("f_{}", self.functions);
        self.functions += 1;
        self.line(&format!(
            "(define-fun {name} ((k Int) (len Int)) Bool\n  {body})"
        ));
        name
    }

    /// The body of an until.
    fn until(&mut self, w: Window, l: &Core, r: &Core) -> String {
        let before = match l {
            Core::True => String::new(),
            l => {
                let l = self.define(l);
                let place = format!("(and (<= (+ {} k) j) (< j i))", w.a);
                format!(" (forall ((j Int)) (=> {place} ({l} j len)))")
            }
        };
        let r = self.define(r);
        let place = format!("(<= (+ {} k) i) (<= i (+ {} k))", w.a, w.b);
        format!("(exists ((i Int)) (and {place} ({r} i len){before}))")
    }
}

/// The whole script for a formula, with a comment in its first line.
pub fn script(f: &Formula, comment: &str) -> String {
    let mut script = Script {
        text: String::new(),
        functions: 0,
    };
    script.line(&format!("; {comment}"));
    for k in 0..=LARGEST_FLAG {
        script.line(&format!("(declare-fun p_{k} (Int) Bool)"));
    }
    script.line("(declare-fun len () Int)");
    let f = script.define(&core(f));
    script.line(&format!("(assert ({f} 0 len))"));
    script.line("(check-sat)");
    script.text
}
