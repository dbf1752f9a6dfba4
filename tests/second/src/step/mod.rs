//! A step of the sequencer: one frame through code, from any registers.

pub mod case;
pub mod cases;

use crate::load_code::load_code;
use crate::machine::Registers;
use crate::refusal::Refusal;

/// A step: the output bit and the registers after it, or the refusal of the
/// code, which leaves the registers as they are.
pub fn step(registers: &Registers, code: &[u8], frame: u8) -> (Result<bool, Refusal>, Registers) {
    let mut after = registers.clone();
    let output = load_code(code).map(|code| after.take(&code, frame));
    (output, after)
}

#[cfg(test)]
mod tests {
    use super::*;

    #[test]
    fn a_refused_step_leaves_the_registers() {
        let mut registers = Registers::fresh();
        registers.counters[3] = Some(9);
        registers.delays[77] = true;
        let refusal = Refusal {
            number: 10,
            place: 1,
        };
        let (output, after) = step(&registers, &[0x01, 0x05, 0x01, 0x00], 3);
        assert_eq!(output, Err(refusal));
        assert_eq!(after, registers);
        let (output, after) = step(&registers, &[0x01], 3);
        assert_eq!(output, Ok(true));
        assert_eq!(after, registers);
    }
}
