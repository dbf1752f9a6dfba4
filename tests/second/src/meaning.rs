//! Whether a formula holds on a clip, word for word as document 01 says it.
//! `holds` is asked about one frame and remembers nothing between questions, so
//! large windows inside each other take long. `verdicts` has the same questions, asks
//! each operand about each frame once, and keeps the answers. A test shows that the
//! two agree.

use crate::formula::{Formula, Window};

/// Whether the formula holds on the clip from frame `i`, which is a frame of
/// the clip.
pub fn holds(f: &Formula, clip: &[u8], i: usize) -> bool {
    let operands = f.operands();
    says(f, clip, i, &|k, at| holds(operands[k], clip, at))
}

/// Whether the formula holds on the clip from each frame, in frame order.
pub fn verdicts(f: &Formula, clip: &[u8]) -> Vec<bool> {
    let operands = f.operands();
    let kept: Vec<Vec<bool>> = operands.iter().map(|f| verdicts(f, clip)).collect();
    let from = |i| says(f, clip, i, &|k, at| kept[k][at]);
    (0..clip.len()).map(from).collect()
}

/// What the formula says on the clip from frame `i`, where `operand` answers
/// whether operand 0, the left or the only one, or operand 1 holds on the clip
/// from a frame.
fn says(f: &Formula, clip: &[u8], i: usize, operand: &dyn Fn(usize, usize) -> bool) -> bool {
    assert!(i < clip.len(), "the clip from frame {i} is empty");
    // The length of the clip from i.
    let n = clip.len() - i;
    let first = |place: usize| operand(0, i + place);
    let second = |place: usize| operand(1, i + place);
    match f {
        Formula::True => true,
        Formula::False => false,
        Formula::Flag(k) => (clip[i] >> k) & 1 == 1,
        Formula::Not(_) => !first(0),
        Formula::And(_, _) => first(0) && second(0),
        Formula::Or(_, _) => first(0) || second(0),
        Formula::Until(w, _, _) => until(*w, n, &first, &second),
        Formula::Release(w, _, _) => release(*w, n, &first, &second),
        Formula::Eventually(w, _) => until(*w, n, &|_| true, &first),
        Formula::Globally(w, _) => release(*w, n, &|_| false, &first),
    }
}

/// Whether an operand holds on the clip that starts at a place.
type Operand<'a> = &'a dyn Fn(usize) -> bool;

/// l until[a,b] r on a clip of n frames: some place of the window that lies in
/// the clip has r, and each place of the window before it has l.
fn until(w: Window, n: usize, l: Operand, r: Operand) -> bool {
    n > w.a && (w.a..=w.b).any(|p| p < n && r(p) && (w.a..p).all(l))
}

/// l release[a,b] r is not((not l) until[a,b] (not r)).
fn release(w: Window, n: usize, l: Operand, r: Operand) -> bool {
    !until(w, n, &|place| !l(place), &|place| !r(place))
}

#[cfg(test)]
mod tests {
    use super::*;
    use crate::load::load;
    use crate::random::rule::{formula, good_formula, Budget};
    use crate::random::Random;
    use crate::text::bytes;

    fn rule(text: &str) -> Formula {
        load(&bytes(text)).unwrap().formula
    }

    /// The verdicts of all frames, one by one.
    fn one_by_one(f: &Formula, clip: &[u8]) -> Vec<bool> {
        (0..clip.len()).map(|i| holds(f, clip, i)).collect()
    }

    /// The verdicts of all frames, as 0 and 1.
    fn verdicts(text: &str, clip: &[u8]) -> Vec<u8> {
        let verdicts = one_by_one(&rule(text), clip);
        verdicts.into_iter().map(u8::from).collect()
    }

    fn small_clip(random: &mut Random, frames: usize) -> Vec<u8> {
        (0..frames).map(|_| random.below(4) as u8).collect()
    }

    fn small_formula(random: &mut Random) -> Formula {
        let mut budget = Budget {
            timed: 4,
            lower: 12,
            bound: 3,
            flag: 1,
        };
        let items = 1 + random.below(9);
        formula(random, items, &mut budget)
    }

    fn boxed(f: &Formula) -> Box<Formula> {
        Box::new(f.clone())
    }

    fn not(f: &Formula) -> Box<Formula> {
        Box::new(Formula::Not(boxed(f)))
    }

    #[test]
    fn constants_flags_and_connectives() {
        assert_eq!(verdicts("10", &[0, 255]), [1, 1]);
        assert_eq!(verdicts("11", &[0, 255]), [0, 0]);
        for k in 0..8u8 {
            for frame in 0..=255u8 {
                let has = (frame / 2u8.pow(k as u32)) % 2;
                assert_eq!(holds(&Formula::Flag(k as usize), &[frame], 0), has == 1);
            }
        }
        assert_eq!(verdicts("12 00 20", &[0, 1]), [1, 0]);
        assert_eq!(verdicts("12 00 12 01 21", &[0, 1, 2, 3]), [0, 0, 0, 1]);
        assert_eq!(verdicts("12 00 12 01 22", &[0, 1, 2, 3]), [0, 1, 1, 1]);
        assert_eq!(verdicts("12 00 12 00 20 21", &[0, 1]), [0, 0]);
    }

    #[test]
    fn until_says_nothing_about_frames_before_its_window() {
        assert_eq!(verdicts("12 00 12 01 30 01 03", &[0, 1, 2]), [1, 1, 0]);
    }

    #[test]
    fn until_wants_the_left_operand_inside_its_window() {
        // Place 1 has the left flag, so place 2 may have the right one.
        assert_eq!(verdicts("12 00 12 01 30 01 02", &[0, 1, 2])[0], 1);
        assert_eq!(verdicts("12 00 12 01 30 01 02", &[0, 0, 2])[0], 0);
        // The place with the right operand need not have the left one.
        assert_eq!(verdicts("12 00 12 01 30 00 02", &[2, 0, 0])[0], 1);
        // The window ends at b.
        assert_eq!(verdicts("12 00 12 01 30 00 01", &[1, 1, 2])[0], 0);
        assert_eq!(verdicts("12 00 12 01 30 00 02", &[1, 1, 2])[0], 1);
    }

    #[test]
    fn until_fails_where_its_window_lies_past_the_end() {
        assert_eq!(verdicts("10 10 30 01 03", &[0, 0]), [1, 0]);
        assert_eq!(verdicts("10 32 01 01", &[0, 0]), [1, 0]);
        assert_eq!(verdicts("10 32 02 04", &[0, 0, 0, 0]), [1, 1, 0, 0]);
    }

    #[test]
    fn globally_holds_where_its_window_lies_past_the_end() {
        assert_eq!(verdicts("12 00 33 02 04", &[0]), [1]);
        assert_eq!(verdicts("11 33 01 01", &[0, 0, 0]), [0, 0, 1]);
        assert_eq!(verdicts("12 00 33 02 04", &[0, 0, 1, 0]), [0, 0, 1, 1]);
        assert_eq!(verdicts("12 00 33 00 02", &[1, 1, 0, 1]), [0, 0, 0, 1]);
    }

    #[test]
    fn release_holds_where_its_window_lies_past_the_end() {
        assert_eq!(verdicts("11 11 31 01 03", &[0, 0]), [0, 1]);
        // The left operand frees the places behind it, its own place not.
        assert_eq!(verdicts("12 00 12 01 31 00 02", &[3, 0, 0])[0], 1);
        assert_eq!(verdicts("12 00 12 01 31 00 02", &[1, 2, 2])[0], 0);
        assert_eq!(verdicts("12 00 12 01 31 00 02", &[2, 3, 0])[0], 1);
        assert_eq!(verdicts("12 00 12 01 31 00 02", &[2, 2, 0])[0], 0);
        // A left operand before the window frees nothing.
        assert_eq!(verdicts("12 00 12 01 31 01 02", &[3, 2, 0])[0], 0);
    }

    #[test]
    fn shorter_clips_than_the_horizon_may_satisfy_a_rule() {
        assert!(holds(&rule("12 00 32 02 04"), &[0, 0, 1], 0));
        assert!(!holds(&rule("12 00 32 02 04"), &[0, 1], 0));
        // Of horizon 7, yet three frames are enough.
        assert!(holds(&rule("12 00 33 01 03 32 02 04"), &[0, 0, 0], 0));
        assert!(!holds(&rule("12 00 33 01 03 32 02 04"), &[0, 0], 0));
        // This one holds only on clips of one frame.
        let last = rule("10 32 01 01 20");
        assert!(holds(&last, &[0], 0));
        assert!(!holds(&last, &[0, 0], 0));
    }

    #[test]
    fn no_clip_of_few_frames_meets_the_rule_that_none_meets() {
        let f = rule("12 00 33 00 02 12 00 20 32 01 01 21");
        for frames in 1..=6 {
            for bits in 0..1u8 << frames {
                let clip: Vec<u8> = (0..frames).map(|i| (bits >> i) & 1).collect();
                assert!(!holds(&f, &clip, 0));
            }
        }
    }

    #[test]
    #[should_panic(expected = "is empty")]
    fn the_empty_clip_has_no_meaning() {
        holds(&Formula::True, &[], 0);
    }

    #[test]
    fn only_the_frames_up_to_the_horizon_count() {
        let mut random = Random::new(1);
        for _ in 0..20_000 {
            let f = small_formula(&mut random);
            let h = f.horizon();
            let frames = h + 2 + random.below(4);
            let clip = small_clip(&mut random, frames);
            assert_eq!(holds(&f, &clip, 0), holds(&f, &clip[..h + 1], 0), "{f:?}");
            // Other frames behind the horizon change nothing.
            let mut other = clip[..h + 1].to_vec();
            let more = random.below(4);
            other.extend(small_clip(&mut random, more));
            assert_eq!(holds(&f, &clip, 0), holds(&f, &other, 0), "{f:?}");
        }
    }

    #[test]
    fn no_smaller_horizon_would_do() {
        for (text, shorter, longer) in [
            ("12 00 32 00 03", vec![0, 0, 0], vec![0, 0, 0, 1]),
            ("12 00 33 00 03", vec![1, 1, 1], vec![1, 1, 1, 0]),
            ("12 00 12 01 30 01 03", vec![0, 1, 1], vec![0, 1, 1, 2]),
            ("12 00 12 01 31 01 03", vec![0, 2, 2], vec![0, 2, 2, 1]),
            ("12 00 32 01 02 32 00 01", vec![0, 0, 0], vec![0, 0, 0, 1]),
        ] {
            let f = rule(text);
            assert_eq!(f.horizon(), 3);
            assert_ne!(holds(&f, &shorter, 0), holds(&f, &longer, 0), "{text}");
        }
    }

    #[test]
    fn a_frame_sees_only_the_clip_from_there() {
        let mut random = Random::new(2);
        for _ in 0..5_000 {
            let f = small_formula(&mut random);
            let frames = 1 + random.below(8);
            let clip = small_clip(&mut random, frames);
            for i in 0..frames {
                assert_eq!(holds(&f, &clip, i), holds(&f, &clip[i..], 0), "{f:?}");
            }
        }
    }

    #[test]
    fn timed_kinds_agree_with_their_definitions() {
        let mut random = Random::new(3);
        for _ in 0..5_000 {
            let l = small_formula(&mut random);
            let r = small_formula(&mut random);
            let a = random.below(4);
            let w = Window {
                a,
                b: a + random.below(4),
            };
            let frames = 1 + random.below(8);
            let clip = small_clip(&mut random, frames);
            let same = |f: Formula, g: Formula| {
                assert_eq!(holds(&f, &clip, 0), holds(&g, &clip, 0), "{f:?} {g:?}")
            };
            same(
                Formula::Release(w, boxed(&l), boxed(&r)),
                Formula::Not(Box::new(Formula::Until(w, not(&l), not(&r)))),
            );
            same(
                Formula::Eventually(w, boxed(&r)),
                Formula::Until(w, Box::new(Formula::True), boxed(&r)),
            );
            same(
                Formula::Globally(w, boxed(&r)),
                Formula::Release(w, Box::new(Formula::False), boxed(&r)),
            );
            same(
                Formula::Globally(w, boxed(&r)),
                Formula::Not(Box::new(Formula::Eventually(w, not(&r)))),
            );
        }
    }

    #[test]
    fn timed_kinds_agree_with_a_walk_through_the_window() {
        let mut random = Random::new(4);
        for _ in 0..5_000 {
            let l = small_formula(&mut random);
            let r = small_formula(&mut random);
            let a = random.below(4);
            let w = Window {
                a,
                b: a + random.below(4),
            };
            let frames = 1 + random.below(8);
            let clip = small_clip(&mut random, frames);

            // Walk forward and stop at the first place that decides.
            let mut until = false;
            let mut release = true;
            let mut until_open = true;
            let mut release_open = true;
            let mut some = false;
            let mut every = true;
            for p in w.a..w.b + 1 {
                if p >= frames {
                    break;
                }
                let left = holds(&l, &clip, p);
                let right = holds(&r, &clip, p);
                until = until || (until_open && right);
                until_open = until_open && left;
                release = release && (right || !release_open);
                release_open = release_open && !left;
                some = some || right;
                every = every && right;
            }

            let f = Formula::Until(w, boxed(&l), boxed(&r));
            assert_eq!(holds(&f, &clip, 0), until, "{f:?}");
            let f = Formula::Release(w, boxed(&l), boxed(&r));
            assert_eq!(holds(&f, &clip, 0), release, "{f:?}");
            let f = Formula::Eventually(w, boxed(&r));
            assert_eq!(holds(&f, &clip, 0), some, "{f:?}");
            let f = Formula::Globally(w, boxed(&r));
            assert_eq!(holds(&f, &clip, 0), every, "{f:?}");
        }
    }

    #[test]
    fn all_frames_at_once_are_as_one_by_one() {
        let mut random = Random::new(5);
        for k in 0..20_000 {
            // Any windows on few frames, or small ones on more.
            let (f, frames) = if k % 2 == 0 {
                (good_formula(&mut random), random.between(1, 4))
            } else {
                (small_formula(&mut random), random.between(1, 16))
            };
            let clip = small_clip(&mut random, frames);
            assert_eq!(super::verdicts(&f, &clip), one_by_one(&f, &clip), "{f:?}");
        }
        assert_eq!(super::verdicts(&Formula::True, &[]), []);
    }
}
