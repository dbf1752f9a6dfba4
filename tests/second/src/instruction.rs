//! The sequencer's instructions, and their bytes.

use crate::number;

/// An instruction. The operands i and j are numbers of earlier instructions.
#[derive(Clone, Copy, Debug, PartialEq, Eq)]
pub enum Instruction {
    One,
    Flag { k: usize },
    Nand { i: usize, j: usize },
    Reach { i: usize, j: usize, w: usize },
    Later { i: usize, d: usize },
}

impl Instruction {
    /// The instructions whose bits this one reads.
    pub fn operands(self) -> Vec<usize> {
        match self {
            Instruction::One | Instruction::Flag { .. } => vec![],
            Instruction::Nand { i, j } | Instruction::Reach { i, j, .. } => vec![i, j],
            Instruction::Later { i, .. } => vec![i],
        }
    }
}

/// How many of the instructions are REACH.
pub fn reaches(code: &[Instruction]) -> usize {
    let is_reach = |instruction: &&Instruction| matches!(instruction, Instruction::Reach { .. });
    code.iter().filter(is_reach).count()
}

/// The sum of the distances of all LATER.
pub fn distances(code: &[Instruction]) -> usize {
    let distance = |instruction: &Instruction| match instruction {
        Instruction::Later { d, .. } => *d,
        _ => 0,
    };
    code.iter().map(distance).sum()
}

/// The bytes of code, numbers in their shortest form. Limits are not asked
/// about.
pub fn write(code: &[Instruction]) -> Vec<u8> {
    let mut out = Vec::new();
    for instruction in code {
        let (byte, numbers) = match *instruction {
            Instruction::One => (0x01, vec![]),
            Instruction::Flag { k } => (0x02, vec![k]),
            Instruction::Nand { i, j } => (0x03, vec![i, j]),
            Instruction::Reach { i, j, w } => (0x04, vec![i, j, w]),
            Instruction::Later { i, d } => (0x05, vec![i, d]),
        };
        out.push(byte);
        for number in numbers {
            number::write(number, &mut out);
        }
    }
    out
}
