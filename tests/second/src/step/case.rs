//! A case for a step: `step CODE | FRAME | COUNTERS | DELAYS`. Counters are in
//! decimal, 0 for "none" and else one more than the count; delay bits are hex digits,
//! four bits to a digit, the first one highest. What is not given is 0.

use super::cases;
use super::step;
use crate::entry;
use crate::machine::{counter_of, kept, Registers};
use crate::stream::Packed;
use crate::text::{byte_of_words, bytes_of_words, words_of_bytes};

/// Code, a frame, and the registers before.
#[derive(Clone, Debug, PartialEq, Eq)]
pub struct Step {
    pub code: Vec<u8>,
    pub frame: u8,
    pub registers: Box<Registers>,
}

impl entry::Case for Step {
    const VERBS: &'static [&'static str] = &["step"];

    fn of_parts(_: &str, parts: &[&str]) -> Result<Option<Step>, String> {
        let [code, frame, counters, delays] = parts else {
            return Ok(None);
        };
        Ok(Some(Step {
            code: bytes_of_words(code)?,
            frame: byte_of_words(frame)?,
            registers: Box::new(registers_of_words(counters, delays)?),
        }))
    }

    fn parts(&self) -> (&'static str, Vec<String>) {
        let parts = vec![
            words_of_bytes(&self.code),
            words_of_bytes(&[self.frame]),
            words_of_counters(&self.registers),
            words_of_delays(&self.registers),
        ];
        ("step", parts)
    }

    /// `bit BIT` or the refusal, and ` counters COUNTERS delays DELAYS` with all
    /// registers after it.
    fn answer(&self) -> String {
        let (output, after) = step(&self.registers, &self.code, self.frame);
        let output = match output {
            Ok(bit) => format!("bit {}", u8::from(bit)),
            Err(refusal) => refusal.to_string(),
        };
        let counters = words_of_counters(&after);
        let delays = words_of_delays(&after);
        format!("{output} counters {counters} delays {delays}")
    }

    fn cases(seed: u64) -> Vec<Step> {
        cases::steps(seed)
    }

    /// The registers are two bytes for each counter, lowest first, and then a byte, 0
    /// or 1, for each delay bit.
    fn packed(&self) -> Option<Packed> {
        let counters = self.registers.counters.into_iter();
        let mut registers: Vec<u8> = counters.flat_map(|n| kept(n).to_le_bytes()).collect();
        registers.extend(self.registers.delays.map(u8::from));
        let bytes = [self.code.clone(), vec![self.frame], registers];
        Some(Packed { kind: b's', bytes })
    }
}

/// The registers of their two texts.
fn registers_of_words(counters: &str, delays: &str) -> Result<Registers, String> {
    let mut registers = Registers::fresh();
    for (n, word) in counters.split_whitespace().enumerate() {
        let number = word
            .parse()
            .map_err(|_| format!("{word:?} is not a counter"))?;
        *registers
            .counters
            .get_mut(n)
            .ok_or("there are too many counters")? = counter_of(number);
    }
    for (n, digit) in delays.chars().enumerate() {
        let value = digit
            .to_digit(16)
            .ok_or_else(|| format!("{digit:?} is not a hex digit"))?;
        for bit in 0..4 {
            *registers
                .delays
                .get_mut(4 * n + bit)
                .ok_or("there are too many delay bits")? = value >> (3 - bit) & 1 == 1;
        }
    }
    Ok(registers)
}

/// All counters as text.
fn words_of_counters(registers: &Registers) -> String {
    registers
        .counters
        .map(|counter| kept(counter).to_string())
        .join(" ")
}

/// All delay bits as text.
fn words_of_delays(registers: &Registers) -> String {
    let digit = |bits: &[bool]| {
        let value = bits
            .iter()
            .fold(0, |value, &bit| 2 * value + u32::from(bit));
        format!("{value:x}")
    };
    registers.delays.chunks(4).map(digit).collect()
}

#[cfg(test)]
mod tests {
    use super::*;
    use crate::entry::tests::{answer_to, case, no_cases, read_back};
    use crate::entry::Case;
    use crate::limits::{COUNTERS, DELAYS};

    /// So many counters at 0.
    fn zeros(count: usize) -> String {
        vec!["0"; count].join(" ")
    }

    #[test]
    fn lines_say_cases() {
        let mut registers = Registers::fresh();
        registers.counters[1] = Some(256);
        registers.delays[0] = true;
        registers.delays[6] = true;
        let step = Step {
            code: vec![1],
            frame: 0x0f,
            registers: Box::new(registers),
        };
        assert_eq!(case::<Step>("step 01 | 0f | 0 257 | 82"), step);
        let counters = zeros(COUNTERS - 2);
        let delays = "9a".repeat(DELAYS / 8);
        read_back::<Step>(&[&format!("step 01 02 | ff | 0 65535 {counters} | {delays}")]);
        no_cases::<Step>(&[
            "step 01 | 0f",
            "step 01 | | |",
            "step 01 | 00 00 | |",
            "step 01 | 00 | 65536 |",
            &format!("step 01 | 00 | {} |", zeros(COUNTERS + 1)),
            "step 01 | 00 | | x",
            &format!("step 01 | 00 | | {}", "0".repeat(DELAYS / 4 + 1)),
        ]);
    }

    #[test]
    fn a_case_is_packed() {
        let packed = case::<Step>("step 01 | 0f | 1 257 | 82").packed().unwrap();
        let mut registers = vec![0; 2 * COUNTERS + DELAYS];
        registers[..4].copy_from_slice(&[1, 0, 1, 1]);
        registers[2 * COUNTERS] = 1;
        registers[2 * COUNTERS + 6] = 1;
        let bytes = [vec![1], vec![0x0f], registers];
        assert_eq!((packed.kind, packed.bytes), (b's', bytes));
    }

    #[test]
    fn answers_as_lines() {
        let counters = format!("9 257 {}", zeros(COUNTERS - 2));
        let zeros = |count| "0".repeat(DELAYS / 4 - count);
        assert_eq!(
            answer_to("step 02 00 05 00 05 01 | 01 | 9 257 | 90"),
            format!("bit 1 counters {counters} delays 28{}", zeros(2))
        );
        assert_eq!(
            answer_to("step 00 | 01 | 9 257 | 8"),
            format!("refused 2 0 counters {counters} delays 8{}", zeros(1))
        );
    }
}
