//! The search, as document 01 words it: by length, states in the order of their
//! first clips, bytes 0 to 255, up to the first output 1. A state is the value of
//! all registers of the emitted code.
//!
//! Room is judged afterwards. `explore` stores every state that it finds, and only
//! stops at the end of a length where it has more states than it is told.

pub mod case;
pub mod cases;
pub mod every_clip;

use crate::emit::emit;
use crate::formula::Formula;
use crate::instruction::Instruction;
use crate::limits::{MOST_RECORDS, RECORD};
use crate::load::load;
use crate::machine::Registers;
use crate::refusal::Refusal;
use std::collections::HashSet;

/// The records that a table of so many bytes has room for.
pub fn room(table: usize) -> usize {
    (table / RECORD).min(MOST_RECORDS)
}

/// What a search answers: the length of the clip, or that none exists, and the
/// number of states.
#[derive(Clone, Copy, Debug, PartialEq, Eq)]
pub enum Answer {
    Met { length: usize, states: usize },
    None { states: usize },
}

/// Searches for the first clip that meets a rule: the rule, then 14, then 15.
pub fn search(rule: &[u8], table: &mut [u8], witness: &mut [u8]) -> Result<Answer, Refusal> {
    let refuse = |number| Refusal { number, place: 0 };
    let rule = load(rule)?;
    if witness.len() < rule.horizon + 1 {
        return Err(refuse(14));
    }
    let room = room(table.len());
    let bytes: Vec<u8> = (0..=255).collect();
    let explored = explore(&emit(&rule.formula), &bytes, room);
    // Nothing is kept in the table here. It is zero after 15 and every answer.
    table.fill(0);
    let states = explored.states;
    if states > room {
        return Err(refuse(15));
    }
    match explored.clip {
        Some(clip) => {
            let length = clip.len();
            witness[..length].copy_from_slice(&clip);
            Ok(Answer::Met { length, states })
        }
        None => Ok(Answer::None { states }),
    }
}

/// What the clips of some code come to.
#[derive(Clone, Debug, PartialEq, Eq)]
pub struct Explored {
    /// The first clip with output 1.
    pub clip: Option<Vec<u8>>,
    /// How many states the shorter clips reach; without a clip, all clips, or
    /// those of the lengths that were finished when there were too many.
    pub states: usize,
    /// How many trials there are, each of a byte on a state: what a search costs.
    pub trials: u64,
}

/// A state, and the first clip that reaches it: a frame before the first clip of
/// an earlier state, given by its number. The fresh state has the empty clip.
struct State {
    registers: Registers,
    first: Option<(u8, usize)>,
}

/// Tries these bytes, which rise, on every state, up to the first output 1, to
/// the last state, or to the end of a length by which the clips so far reach
/// more than `most` states.
pub fn explore(code: &[Instruction], bytes: &[u8], most: usize) -> Explored {
    let fresh = Registers::fresh();
    let mut known = HashSet::from([fresh.clone()]);
    let mut states = vec![State {
        registers: fresh,
        first: None,
    }];
    let mut trials = 0;
    // The states whose first clips have one length, and are tried next.
    let mut length = 0..1;
    while !length.is_empty() && length.end <= most {
        for number in length.clone() {
            for &byte in bytes {
                let mut registers = states[number].registers.clone();
                trials += 1;
                if registers.take(code, byte) {
                    return Explored {
                        clip: Some(clip_before(&states, byte, number)),
                        states: length.end,
                        trials,
                    };
                }
                if !known.contains(&registers) {
                    known.insert(registers.clone());
                    let first = Some((byte, number));
                    states.push(State { registers, first });
                }
            }
        }
        length = length.end..states.len();
    }
    Explored {
        clip: None,
        states: length.end,
        trials,
    }
}

/// The clip of a frame before the first clip of a state.
fn clip_before(states: &[State], frame: u8, number: usize) -> Vec<u8> {
    let mut clip = vec![frame];
    let mut state = &states[number];
    while let Some((frame, number)) = state.first {
        clip.push(frame);
        state = &states[number];
    }
    clip
}

/// The bytes that have no flag but those that a formula names; they rise. The
/// code of the formula reads no other flag, so any other byte gives the output
/// and leads to the state that it does without its other flags. That byte is
/// smaller: no first clip has another byte in it.
pub fn bytes_of_flags(f: &Formula) -> Vec<u8> {
    let flags = flags_of(f);
    (0..=255).filter(|byte| byte & !flags == 0).collect()
}

/// The flags that a formula names, as a frame that has them all.
fn flags_of(f: &Formula) -> u8 {
    let own = match f {
        Formula::Flag(k) => 1 << k,
        _ => 0,
    };
    f.operands()
        .into_iter()
        .map(flags_of)
        .fold(own, |x, y| x | y)
}

#[cfg(test)]
mod tests {
    use super::*;
    use crate::limits::{BYTES, LARGEST_BOUND, LARGEST_FLAG};
    use crate::random::rule::{searched_formula, Budget};
    use crate::random::Random;
    use crate::standing::TABLE;
    use crate::text::bytes;

    /// The formula of a rule that is accepted.
    fn formula_of(text: &str) -> Formula {
        load(&bytes(text)).unwrap().formula
    }

    /// Searches in a table of so many bytes, with a witness buffer that is just
    /// long enough, or has a byte if the rule is refused. Gives the witness if the
    /// rule is met, and sees to all other bytes.
    fn found(text: &str, table: usize) -> (Result<Answer, Refusal>, Vec<u8>) {
        let rule = bytes(text);
        let mut table = vec![0xff; table];
        let mut witness = vec![0xff; load(&rule).map_or(1, |rule| rule.horizon + 1)];
        let answer = search(&rule, &mut table, &mut witness);
        let kept = if load(&rule).is_ok() { 0 } else { 0xff };
        assert!(table.iter().all(|&byte| byte == kept), "{text}");
        let length = match answer {
            Ok(Answer::Met { length, .. }) => length,
            _ => 0,
        };
        let left = witness.split_off(length);
        assert!(left.iter().all(|&byte| byte == 0xff), "{text}");
        (answer, witness)
    }

    fn met(text: &str, table: usize, clip: &[u8], states: usize) {
        let length = clip.len();
        let answer = Ok(Answer::Met { length, states });
        assert_eq!(found(text, table), (answer, clip.to_vec()), "{text}");
    }

    fn none(text: &str, table: usize, states: usize) {
        assert_eq!(found(text, table), (Ok(Answer::None { states }), vec![]));
    }

    fn refused(text: &str, table: usize, number: u8, place: usize) {
        let refusal = Refusal { number, place };
        assert_eq!(found(text, table), (Err(refusal), vec![]), "{text}");
    }

    #[test]
    fn samples_of_01() {
        // The table that the program lends, and one of no more than their states.
        for table in [TABLE, 7 * RECORD] {
            met("12 00", table, &[1], 1);
            met("10", table, &[0], 1);
            none("11", table, 1);
            none("12 00 12 00 20 21", table, 1);
            met("12 00 32 02 04", table, &[0, 0, 1], 4);
            met("12 00 33 02 04", table, &[0], 1);
            met("10 32 01 01", table, &[0, 0], 2);
            none("12 00 33 00 02 12 00 20 32 01 01 21", table, 4);
            met("12 00 33 01 03 32 02 04", table, &[0, 0, 0], 7);
            met("12 00 32 00 ff 01", table, &[1], 1);
            met("12 00 12 01 30 01 03", table, &[0, 2], 2);
        }
        assert_eq!(formula_of("12 00 32 02 04").horizon(), 4);
        assert_eq!(
            formula_of("12 00 33 00 02 12 00 20 32 01 01 21").horizon(),
            2
        );
        assert_eq!(formula_of("12 00 33 01 03 32 02 04").horizon(), 7);
        assert_eq!(formula_of("12 00 32 00 ff 01").horizon(), LARGEST_BOUND);
    }

    #[test]
    fn samples_of_01_that_are_refused() {
        for table in [0, RECORD, TABLE] {
            refused("12 08", table, 5, 0);
            refused("12", table, 3, 0);
            refused("12 80 00", table, 4, 0);
            refused("12 00 32 04 02", table, 6, 2);
            refused("12 00 32 00 80 02", table, 6, 2);
            refused("21", table, 7, 0);
            refused("10 10", table, 9, 2);
        }
    }

    #[test]
    fn a_hit_counts_though_there_is_no_room_for_another_state() {
        // Byte 0 leads to a second state before byte 1 meets the rule.
        met("12 00 12 00 20 32 01 01 22", RECORD, &[1], 1);
        // Of length 2 there are two more states, found before the clip.
        met("12 00 32 02 04", 4 * RECORD, &[0, 0, 1], 4);
    }

    #[test]
    fn a_thousand_states() {
        let rule = "12 00 32 0a 0a 11 21";
        none(rule, 1_024 * RECORD, 1_024);
        refused(rule, 1_024 * RECORD - 1, 15, 0);
        refused(rule, TABLE, 15, 0);
        refused(rule, RECORD, 15, 0);
    }

    #[test]
    fn room_goes_by_whole_records() {
        let most = MOST_RECORDS * RECORD;
        for (table, records) in [
            (0, 0),
            (RECORD - 1, 0),
            (RECORD, 1),
            (2 * RECORD - 1, 1),
            (2 * RECORD, 2),
            (TABLE, 819),
            (most - 1, MOST_RECORDS - 1),
            (most, MOST_RECORDS),
            (most + RECORD + 1, MOST_RECORDS),
        ] {
            assert_eq!(room(table), records);
        }
        for table in [0, 1, RECORD - 1] {
            refused("12 00", table, 15, 0);
            refused("10", table, 15, 0);
            refused("11", table, 15, 0);
        }
        for table in [RECORD, 2 * RECORD - 1] {
            met("12 00", table, &[1], 1);
            refused("10 32 01 01", table, 15, 0);
            refused("12 00 12 00 20 32 01 01 21", table, 15, 0);
        }
        met("10 32 01 01", 2 * RECORD, &[0, 0], 2);
        met("12 00 32 02 04", most + RECORD + 1, &[0, 0, 1], 4);
    }

    #[test]
    fn the_rule_then_14_then_15() {
        let answer = |text: &str, table: usize, witness: usize| {
            let mut table = vec![9; table];
            let mut witness = vec![9; witness];
            let rule = bytes(text);
            let refusal = search(&rule, &mut table, &mut witness).unwrap_err();
            assert!(witness.iter().all(|&byte| byte == 9));
            let kept = if refusal.number == 15 { 0 } else { 9 };
            assert!(table.iter().all(|&byte| byte == kept));
            (refusal.number, refusal.place)
        };
        assert_eq!(answer("", 0, 0), (1, 0));
        assert_eq!(answer("10 10", 0, 0), (9, 2));
        assert_eq!(answer("12 08", 10 * RECORD, 5), (5, 0));
        assert_eq!(answer("10", 0, 0), (14, 0));
        assert_eq!(answer("10", 10 * RECORD, 0), (14, 0));
        assert_eq!(answer("12 00 32 02 04", RECORD - 1, 4), (14, 0));
        assert_eq!(answer("12 00 32 02 04", RECORD - 1, 5), (15, 0));
        assert_eq!(answer("12 00 32 02 04", 4 * RECORD - 1, 900), (15, 0));
    }

    #[test]
    fn the_largest_counter_is_not_none() {
        // A flag within as many frames as a window takes, but not within one less.
        let mut clip = [0; LARGEST_BOUND + 1];
        clip[LARGEST_BOUND] = 1;
        let rule = "12 00 32 00 ff 01 12 00 20 33 00 fe 01 21";
        met(rule, clip.len() * RECORD, &clip, clip.len());
        let states = clip.len() + 1;
        none("12 00 32 00 ff 01 11 21", states * RECORD, states);
        refused("12 00 32 00 ff 01 11 21", clip.len() * RECORD, 15, 0);
    }

    #[test]
    fn clips_that_are_shorter_than_the_horizon_are_tried_first() {
        met("10 32 01 01 20", RECORD, &[0], 1);
        met("12 00 33 01 ff 01 12 07 21", RECORD, &[0x80], 1);
    }

    #[test]
    fn the_last_frame_is_compared_first() {
        // Flag 0 before flag 1, or the other way round: 02 01 comes before 01 02.
        met(
            "12 00 12 01 32 01 01 21 12 01 12 00 32 01 01 21 22",
            4 * RECORD,
            &[2, 1],
            4,
        );
    }

    #[test]
    fn as_many_states_as_records_can_be() {
        let f = formula_of("12 00 32 10 10 11 21");
        let explored = |most| explore(&emit(&f), &bytes_of_flags(&f), most);
        assert_eq!(explored(MOST_RECORDS).states, MOST_RECORDS);
        assert_eq!(explored(MOST_RECORDS - 1).states, MOST_RECORDS);
        assert_eq!(explored(MOST_RECORDS / 2 - 1).states, MOST_RECORDS / 2);
    }

    #[test]
    fn trials_are_counted_up_to_the_first_hit() {
        let trials = |text: &str, bytes: &[u8], most| {
            let explored = explore(&emit(&formula_of(text)), bytes, most);
            explored.trials
        };
        // Flag 0, by the bytes 0 and 1, or 0 to 255.
        let all: Vec<u8> = (0..=255).collect();
        assert_eq!(trials("12 00", &[0, 1], 1), 2);
        assert_eq!(trials("12 00", &all, 1), 2);
        assert_eq!(trials("11", &all, 1), BYTES as u64);
        assert_eq!(trials("11", &all, 0), 0);
        // All values of ten delay bits; with a record less, those of nine frames or fewer.
        let rule = "12 00 32 0a 0a 11 21";
        assert_eq!(trials(rule, &all, 1_024), 1_024 * BYTES as u64);
        assert_eq!(trials(rule, &[0, 1], 1_024), 1_024 * 2);
        assert_eq!(trials(rule, &all, 1_023), 512 * BYTES as u64);
    }

    #[test]
    fn bytes_of_flags_rise_and_have_no_others() {
        assert_eq!(bytes_of_flags(&Formula::True), [0]);
        assert_eq!(bytes_of_flags(&formula_of("12 07")), [0, 128]);
        let two = formula_of("12 00 12 02 12 00 21 30 00 03");
        assert_eq!(bytes_of_flags(&two), [0, 1, 4, 5]);
    }

    #[test]
    fn neither_other_bytes_nor_more_states_change_the_judgement() {
        let mut random = Random::new(1);
        let all: Vec<u8> = (0..=255).collect();
        let mut judged = [0; 2];
        for _ in 0..1_000 {
            let mut budget = Budget {
                timed: 3,
                lower: 6,
                bound: 6,
                flag: random.pick(&[0, 1, 2, LARGEST_FLAG]),
            };
            let f = searched_formula(&mut random, 6, &mut budget);
            let code = emit(&f);
            let room = random.between(0, 12);
            let enough = |explored: Explored| {
                (explored.states <= room).then_some((explored.clip, explored.states))
            };
            let plain = enough(explore(&code, &all, room));
            let others = enough(explore(&code, &bytes_of_flags(&f), room));
            let more = enough(explore(&code, &bytes_of_flags(&f), 20 * room));
            assert_eq!(plain, others, "{f:?}");
            assert_eq!(plain, more, "{f:?}");
            judged[usize::from(plain.is_some())] += 1;
        }
        assert!(judged.iter().all(|&count| count > 200), "{judged:?}");
    }
}
