//! Bytes as they are lent to the library, with guard bytes on both sides.
//!
//! The guards, and what a lent buffer holds before it is written, are a pattern
//! that differs by turn and by place, so that a byte that is written wrongly, not
//! at all or outside the buffer shows.

use archive::{OfOne, OfTwo};

/// So many guard bytes stand on either side at least.
const GUARD: usize = 32;

/// A buffer inside an allocation of its own.
#[derive(Clone, PartialEq, Eq)]
pub struct Lent {
    all: Box<[u8]>,
    start: usize,
    length: usize,
    null: bool,
}

/// How bytes are laid out, by turn.
pub type Layout = fn(&[u8], u64) -> Lent;

/// A byte of the pattern. Its top bit is set, as few bytes of answers have it.
fn pattern(turn: u64, place: usize) -> u8 {
    let mixed = mix(turn) ^ (place as u64 + 1).wrapping_mul(0xbf58_476d_1ce4_e5b9);
    0x80 | (mixed >> 56) as u8
}

/// A number of 64 bits, of which the upper ones differ from turn to turn.
fn mix(turn: u64) -> u64 {
    (turn + 1).wrapping_mul(0x9e37_79b9_7f4a_7c15)
}

/// So many bytes of the pattern.
pub fn patterned(turn: u64, length: usize) -> Vec<u8> {
    (0..length).map(|place| pattern(turn, place)).collect()
}

impl Lent {
    /// Bytes between guards, whose lengths go by the turn, so that buffers start at
    /// all alignments. Half of the empty buffers are NULL.
    pub fn new(bytes: &[u8], turn: u64) -> Lent {
        let guard = GUARD + (mix(turn) >> 60) as usize;
        Lent::between(guard, bytes, turn)
    }

    /// Bytes that are all of their allocation, so that valgrind sees each byte that
    /// is read or written outside.
    pub fn bare(bytes: &[u8], turn: u64) -> Lent {
        Lent::between(0, bytes, turn)
    }

    /// Bytes between two guards of a length.
    fn between(guard: usize, bytes: &[u8], turn: u64) -> Lent {
        let mut all = patterned(turn, guard + bytes.len() + guard).into_boxed_slice();
        all[guard..guard + bytes.len()].copy_from_slice(bytes);
        Lent {
            all,
            start: guard,
            length: bytes.len(),
            null: mix(turn) >> 59 & 1 == 1,
        }
    }

    pub fn length(&self) -> usize {
        self.length
    }

    pub fn bytes(&self) -> &[u8] {
        &self.all[self.start..self.start + self.length]
    }

    pub fn bytes_mut(&mut self) -> &mut [u8] {
        &mut self.all[self.start..self.start + self.length]
    }

    /// Where the buffer starts, as C sees it. The pointer is good for the guards
    /// too, so that a byte that is written there is only a difference.
    pub fn pointer(&mut self) -> *mut u8 {
        if self.length == 0 && self.null {
            return std::ptr::null_mut();
        }
        self.all.as_mut_ptr().wrapping_add(self.start)
    }

    /// Keeps only the first bytes as the buffer, if it has so many.
    pub fn shorten(&mut self, length: usize) -> bool {
        let shorter = length <= self.length;
        if shorter {
            self.length = length;
        }
        shorter
    }

    /// The first place at which two such buffers differ, counted from the buffer's
    /// first byte; in the guard before it, below 0.
    pub fn difference(&self, other: &Lent) -> Option<isize> {
        let at = (0..self.all.len()).find(|&at| self.all.get(at) != other.all.get(at))?;
        Some(at as isize - self.start as isize)
    }

    /// Some bytes from a place on, guards included.
    pub fn from(&self, place: isize, count: usize) -> &[u8] {
        let at = (self.start as isize + place) as usize;
        &self.all[at..self.all.len().min(at + count)]
    }
}

// In these calls the pointers and lengths are those of lent buffers, which live through
// the call, and of which no other pointer is in use.

/// Calls a function that reads one buffer and writes one.
pub fn of_one(function: OfOne, first: &mut Lent, out: &mut Lent) -> u64 {
    unsafe { function(first.pointer(), first.length(), out.pointer(), out.length()) }
}

/// Calls a function that reads two buffers and writes one.
pub fn of_two(function: OfTwo, first: &mut Lent, second: &mut Lent, out: &mut Lent) -> u64 {
    unsafe {
        function(
            first.pointer(),
            first.length(),
            second.pointer(),
            second.length(),
            out.pointer(),
            out.length(),
        )
    }
}

#[cfg(test)]
mod tests {
    use super::*;

    #[test]
    fn buffers_hold_their_bytes_between_guards() {
        let mut null = 0;
        let mut alignments = [0; 16];
        for turn in 0..4_000 {
            let mut lent = Lent::new(&[1, 2, 3], turn);
            assert_eq!(lent.bytes(), [1, 2, 3]);
            assert_eq!(lent.length(), 3);
            assert_eq!(lent.all.len(), 3 + 2 * lent.start);
            assert!(lent.start >= GUARD);
            assert_eq!(unsafe { *lent.pointer() }, 1);
            alignments[lent.start % 16] += 1;
            null += usize::from(Lent::new(&[], turn).pointer().is_null());
        }
        assert!((1_900..2_100).contains(&null), "{null}");
        assert!(
            alignments.iter().all(|&count| count > 200),
            "{alignments:?}"
        );
    }

    #[test]
    fn a_bare_buffer_has_no_guards() {
        let mut lent = Lent::bare(&[1, 2, 3], 0);
        assert_eq!(*lent.all, [1, 2, 3]);
        assert_eq!(lent.bytes(), [1, 2, 3]);
        assert_eq!(unsafe { *lent.pointer() }, 1);
        assert!(!lent.pointer().is_null());
    }

    #[test]
    fn every_change_is_a_difference() {
        for turn in 0..20 {
            let lent = Lent::new(&patterned(turn + 1, 20), turn);
            assert_eq!(lent.difference(&lent.clone()), None);
            for at in 0..lent.all.len() {
                let mut other = lent.clone();
                other.all[at] ^= 1;
                let place = at as isize - lent.start as isize;
                assert_eq!(lent.difference(&other), Some(place));
                assert_eq!(lent.from(place, 1), [lent.all[at]]);
                assert!(lent != other);
            }
        }
    }

    #[test]
    fn a_shorter_buffer_is_another_one() {
        let lent = Lent::new(&[1, 2, 3], 0);
        let mut other = lent.clone();
        assert!(!other.shorten(4));
        assert!(other == lent);
        assert!(other.shorten(2));
        assert_eq!(other.bytes(), [1, 2]);
        assert!(other != lent);
    }

    #[test]
    fn patterns_differ_by_turn_and_place() {
        let (first, second) = (patterned(1, 1_000), patterned(2, 1_000));
        let same = first.iter().zip(&second).filter(|(x, y)| x == y).count();
        assert!(same < 100, "{same}");
        let same = first.windows(2).filter(|pair| pair[0] == pair[1]).count();
        assert!(same < 100, "{same}");
        assert!(first.iter().all(|&byte| byte >= 0x80));
    }
}
