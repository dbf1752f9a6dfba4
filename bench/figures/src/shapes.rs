//! Random rules for the solver's table: several shapes, each with windows of several
//! sizes. A seed fixes them all.

use second::formula::{Formula, Window};
use second::meaning::holds;
use second::random::rule::{formula, Budget};
use second::random::Random;

/// The rules are those of this seed.
const SEED: u64 = 2;
/// The largest bounds, and how many rules of each shape have such windows.
const SIZES: [(usize, usize); 3] = [(5, 4), (20, 3), (60, 3)];
/// The flags 0 to 3 are named.
const LARGEST_FLAG: usize = 3;

/// A rule of the table.
pub struct Sample {
    pub shape: &'static str,
    /// The largest bound of its windows.
    pub bound: usize,
    pub formula: Formula,
}

type Shape = fn(&mut Random, usize) -> Formula;

const SHAPES: [(&str, Shape); 5] = [
    ("windows", windows),
    ("response", response),
    ("nested", nested),
    ("mixed", mixed),
    ("clash", clash),
];

/// All rules of the table.
pub fn samples() -> Vec<Sample> {
    let mut random = Random::new(SEED);
    let mut samples = Vec::new();
    for (shape, make) in SHAPES {
        for (bound, count) in SIZES {
            for _ in 0..count {
                let formula = longer(&mut random, make, bound);
                samples.push(Sample {
                    shape,
                    bound,
                    formula,
                });
            }
        }
    }
    samples
}

/// The first formula of a shape that no clip of one frame satisfies, as such a clip is
/// found at once.
fn longer(random: &mut Random, make: Shape, bound: usize) -> Formula {
    loop {
        let formula = make(random, bound);
        if (0..=u8::MAX).all(|frame| !holds(&formula, &[frame], 0)) {
            return formula;
        }
    }
}

fn and(l: Formula, r: Formula) -> Formula {
    Formula::And(Box::new(l), Box::new(r))
}

fn or(l: Formula, r: Formula) -> Formula {
    Formula::Or(Box::new(l), Box::new(r))
}

fn not(f: Formula) -> Formula {
    Formula::Not(Box::new(f))
}

fn eventually(w: Window, f: Formula) -> Formula {
    Formula::Eventually(w, Box::new(f))
}

fn globally(w: Window, f: Formula) -> Formula {
    Formula::Globally(w, Box::new(f))
}

/// All of these formulas, of which there is one.
fn all(formulas: impl IntoIterator<Item = Formula>) -> Formula {
    formulas.into_iter().reduce(and).expect("a formula")
}

/// A window with bounds up to the largest. Half of the windows begin at once, and the
/// others soon, as in most rules.
fn window(random: &mut Random, bound: usize) -> Window {
    let a = match random.below(2) {
        0 => 0,
        _ => random.between(1, bound.min(2 + bound / 10)),
    };
    Window {
        a,
        b: random.between(a, bound),
    }
}

fn flag(random: &mut Random) -> Formula {
    Formula::Flag(random.between(0, LARGEST_FLAG))
}

/// A flag, or that it is not there.
fn literal(random: &mut Random) -> Formula {
    let flag = flag(random);
    if random.once_in(2) {
        not(flag)
    } else {
        flag
    }
}

/// One or two literals.
fn literals(random: &mut Random) -> Formula {
    let first = literal(random);
    match random.below(3) {
        0 => first,
        1 => and(first, literal(random)),
        _ => or(first, literal(random)),
    }
}

/// Three to five windows, each with eventually or globally over one or two literals.
fn windows(random: &mut Random, bound: usize) -> Formula {
    let count = random.between(3, 5);
    all((0..count).map(|_| {
        let w = window(random, bound);
        let f = literals(random);
        if random.once_in(2) {
            eventually(w, f)
        } else {
            globally(w, f)
        }
    }))
}

/// Two or three times "always when this, then soon that", and "this" at some time.
fn response(random: &mut Random, bound: usize) -> Formula {
    let count = random.between(2, 3);
    all((0..count).flat_map(|_| {
        let when = flag(random);
        let then = eventually(window(random, bound), literal(random));
        let always = globally(window(random, bound), or(not(when.clone()), then));
        [always, eventually(window(random, bound), when)]
    }))
}

/// Until and release inside each other, three deep, beside another one.
fn nested(random: &mut Random, bound: usize) -> Formula {
    let deep = timed_of_two(random, bound, 3);
    let flat = timed_of_two(random, bound, 1);
    and(deep, flat)
}

/// Until or release of two literals, and of one that is itself such a formula if
/// more than one level is left.
fn timed_of_two(random: &mut Random, bound: usize, levels: usize) -> Formula {
    let w = window(random, bound / levels);
    let inner = match levels {
        1 => literal(random),
        _ => timed_of_two(random, bound, levels - 1),
    };
    let (l, r) = match random.below(2) {
        0 => (literal(random), inner),
        _ => (inner, literal(random)),
    };
    match random.below(2) {
        0 => Formula::Until(w, Box::new(l), Box::new(r)),
        _ => Formula::Release(w, Box::new(l), Box::new(r)),
    }
}

/// Any formula of up to 14 items with up to four windows.
fn mixed(random: &mut Random, bound: usize) -> Formula {
    let mut budget = Budget {
        timed: 4,
        lower: 3 + bound / 5,
        bound,
        flag: LARGEST_FLAG,
    };
    let items = random.between(8, 14);
    formula(random, items, &mut budget)
}

/// Windows that cannot all be kept to: something at some time within a window, and
/// never in one that holds it, beside other windows.
fn clash(random: &mut Random, bound: usize) -> Formula {
    let w = window(random, bound);
    let what = literals(random);
    let longer = Window {
        a: random.between(0, w.a),
        b: random.between(w.b, bound),
    };
    let other = windows(random, bound);
    let never = globally(longer, not(what.clone()));
    all([eventually(w, what), other, never])
}
