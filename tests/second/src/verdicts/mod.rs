//! The verdicts of a rule on a clip, by the rule's meaning.

pub mod case;
pub mod cases;

use crate::load::load;
use crate::meaning::verdicts;
use crate::refusal::Refusal;
use crate::run::write_bits;

/// Writes whether a rule holds on the clip from each frame: the rule, then 13, then
/// 16. It writes one byte a frame from the buffer's first byte on, and nothing if it
/// refuses.
pub fn write_verdicts(rule: &[u8], clip: &[u8], buffer: &mut [u8]) -> Result<(), Refusal> {
    let rule = load(rule)?;
    write_bits(clip, buffer, || verdicts(&rule.formula, clip))
}

#[cfg(test)]
mod tests {
    use super::*;
    use crate::limits::MOST_FRAMES;
    use crate::text::bytes;

    #[test]
    fn the_sample_of_01() {
        let mut buffer = [9; 5];
        let rule = bytes("12 00 12 01 30 01 03");
        assert_eq!(write_verdicts(&rule, &[0, 1, 2], &mut buffer), Ok(()));
        assert_eq!(buffer, [1, 1, 0, 9, 9]);
    }

    #[test]
    fn the_rule_is_refused_then_13_then_16() {
        let number = |rule: &[u8], frames: usize, room: usize| {
            let mut buffer = vec![7; room];
            let result = write_verdicts(rule, &vec![0; frames], &mut buffer);
            if result.is_err() {
                assert!(buffer.iter().all(|&byte| byte == 7));
            }
            result.map_or_else(|refusal| (refusal.number, refusal.place), |()| (0, 0))
        };
        assert_eq!(number(&[], 0, 0), (1, 0));
        assert_eq!(number(&[0x10, 0x13], MOST_FRAMES + 1, 0), (2, 1));
        assert_eq!(number(&[0x10, 0x10], 3, 0), (9, 2));
        assert_eq!(number(&[0x10], 0, 0), (13, 0));
        assert_eq!(number(&[0x10], 0, 5), (13, 0));
        assert_eq!(number(&[0x10], MOST_FRAMES + 1, 0), (13, 0));
        assert_eq!(number(&[0x10], MOST_FRAMES + 1, MOST_FRAMES + 1), (13, 0));
        assert_eq!(number(&[0x10], MOST_FRAMES, MOST_FRAMES - 1), (16, 0));
        assert_eq!(number(&[0x10], MOST_FRAMES, MOST_FRAMES), (0, 0));
        assert_eq!(number(&[0x10], 1, 0), (16, 0));
        assert_eq!(number(&[0x10], 3, 9), (0, 0));
    }
}
