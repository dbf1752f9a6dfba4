//! The sequencer's registers, and one frame through code.

use crate::instruction::Instruction;
use crate::limits::{COUNTERS, DELAYS};
use std::hash::{Hash, Hasher};

/// The registers: counters, each with a count or "none", and delay bits.
#[derive(Clone, Debug, PartialEq, Eq)]
pub struct Registers {
    pub counters: [Option<u32>; COUNTERS],
    pub delays: [bool; DELAYS],
}

/// Delay bits are hashed by words of 64 bits, as one by one they take long.
impl Hash for Registers {
    fn hash<H: Hasher>(&self, hasher: &mut H) {
        self.counters.hash(hasher);
        for bits in self.delays.chunks(64) {
            let word = bits
                .iter()
                .fold(0u64, |word, &bit| word << 1 | u64::from(bit));
            word.hash(hasher);
        }
    }
}

/// The counter that a number stands for: 0 is "none", any other number one more
/// than the count.
pub fn counter_of(number: u16) -> Option<u32> {
    (number > 0).then(|| u32::from(number) - 1)
}

/// The number that stands for a counter.
pub fn kept(counter: Option<u32>) -> u16 {
    match counter {
        None => 0,
        Some(count) => u16::try_from(count + 1).expect("a count that two bytes keep"),
    }
}

/// Whether a frame has flag k.
pub fn has_flag(frame: u8, k: usize) -> bool {
    frame / 2u8.pow(k as u32) % 2 == 1
}

/// What a REACH makes of its counter.
pub fn reach(counter: Option<u32>, i: bool, j: bool, w: usize) -> Option<u32> {
    if j {
        return Some(0);
    }
    match counter {
        Some(count) if i && count < w as u32 => Some(count + 1),
        _ => None,
    }
}

impl Registers {
    /// Every counter "none", every delay bit 0.
    pub fn fresh() -> Registers {
        Registers {
            counters: [None; COUNTERS],
            delays: [false; DELAYS],
        }
    }

    /// Takes one frame through accepted code and gives the output bit.
    pub fn take(&mut self, code: &[Instruction], frame: u8) -> bool {
        let mut bits: Vec<bool> = Vec::with_capacity(code.len());
        // What no instruction has taken yet, in order.
        let mut counters = self.counters.iter_mut();
        let mut delays = self.delays.iter_mut();
        for instruction in code {
            let bit = match *instruction {
                Instruction::One => true,
                Instruction::Flag { k } => has_flag(frame, k),
                Instruction::Nand { i, j } => !(bits[i] && bits[j]),
                Instruction::Reach { i, j, w } => {
                    let counter = counters.next().expect("a counter is left");
                    *counter = reach(*counter, bits[i], bits[j], w);
                    counter.is_some()
                }
                Instruction::Later { i, d } => {
                    // Oldest first: each bit moves to the place before its own.
                    let mut line: Vec<&mut bool> = delays.by_ref().take(d).collect();
                    assert_eq!(line.len(), d, "delay bits are left");
                    let oldest = *line[0];
                    for place in 1..d {
                        *line[place - 1] = *line[place];
                    }
                    *line[d - 1] = bits[i];
                    oldest
                }
            };
            bits.push(bit);
        }
        *bits.last().expect("code has an instruction")
    }
}

#[cfg(test)]
mod tests {
    use super::*;
    use crate::load_code::load_code;
    use crate::text::bytes;

    fn code_of(text: &str) -> Vec<Instruction> {
        load_code(&bytes(text)).unwrap()
    }

    #[test]
    fn counters_are_kept_as_numbers_and_back() {
        assert_eq!(counter_of(0), None);
        assert_eq!(counter_of(1), Some(0));
        assert_eq!(counter_of(65_535), Some(65_534));
        for number in 0..=65_535 {
            assert_eq!(kept(counter_of(number)), number);
        }
    }

    #[test]
    fn a_counter_goes_by_the_table() {
        for w in [0u32, 1, 2, 254, 255] {
            for count in [0, 1, 2, 253, 254, 255, 256, 65_534] {
                let some = Some(count);
                assert_eq!(reach(some, false, true, w as usize), Some(0));
                assert_eq!(reach(some, true, true, w as usize), Some(0));
                assert_eq!(reach(some, false, false, w as usize), None);
                let risen = (count < w).then_some(count + 1);
                assert_eq!(reach(some, true, false, w as usize), risen);
            }
            for i in [false, true] {
                assert_eq!(reach(None, i, true, w as usize), Some(0));
                assert_eq!(reach(None, i, false, w as usize), None);
            }
        }
    }

    #[test]
    fn registers_are_taken_in_code_order() {
        // Two REACH and two LATER; each one's registers are where 01 puts them.
        let code = code_of("02 00 02 01 04 00 01 05 04 01 00 09 05 00 02 05 01 03 01");
        let mut registers = Registers::fresh();
        registers.counters = [Some(7); COUNTERS];
        registers.counters[1] = Some(8);
        for place in [0, 3, 4, 10, DELAYS - 1] {
            registers.delays[place] = true;
        }
        assert!(registers.take(&code, 1));
        let mut expected = Registers::fresh();
        expected.counters = [Some(7); COUNTERS];
        // Counter 0 is above its width. Counter 1 has j set (flag 0).
        expected.counters[0] = None;
        expected.counters[1] = Some(0);
        // Line 0 1 takes flag 0, line 2 3 4 takes flag 1; the others stay.
        for place in [1, 2, 3, 10, DELAYS - 1] {
            expected.delays[place] = true;
        }
        assert_eq!(registers, expected);
    }

    #[test]
    fn a_counter_above_its_width_becomes_none() {
        let code = code_of("02 00 02 01 04 00 01 ff 01");
        for (count, frame, after) in [
            (254, 1, Some(255)),
            (255, 1, None),
            (256, 1, None),
            (65_534, 1, None),
            (254, 0, None),
            (256, 2, Some(0)),
            (65_534, 3, Some(0)),
        ] {
            let mut registers = Registers::fresh();
            registers.counters[0] = Some(count);
            assert_eq!(registers.take(&code, frame), after.is_some());
            assert_eq!(registers.counters[0], after, "{count} {frame}");
        }
    }
}
