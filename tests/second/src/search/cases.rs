//! The list of searches.
//!
//! What a search costs goes by its trials: each of 256 bytes on each state. So most
//! rules here have few states, or their tables little room, and some have many: a
//! state is found by an index, which shows nothing while the records are few.

use super::case::Search;
use super::{bytes_of_flags, explore, room, Explored};
use crate::emit::emit;
use crate::formula::{write, Formula, Window};
use crate::limits::{
    BYTES, LARGEST_BOUND, LARGEST_FLAG, LARGEST_HORIZON, MOST_ITEMS, MOST_LOWER, MOST_RECORDS,
    MOST_TIMED, RECORD,
};
use crate::load::cases::samples;
use crate::load::load;
use crate::random::rule::{damaged_rule, good_formula, searched_formula, Budget};
use crate::random::{generator, Random};
use crate::standing::TABLE;
use crate::text::bytes;

/// The bytes that the buffers are full of.
const FILLS: [u8; 3] = [0xff, 0x00, 0xa5];

/// Rules of 1 to 271 states, met or not.
const COUNTED: [&str; 21] = [
    "12 00",
    "11",
    "10 32 01 01",
    "12 00 12 01 30 01 03",
    "12 00 20 32 01 01 12 00 21",
    "12 00 32 01 02 11 21",
    "12 00 32 02 04",
    "12 00 33 00 02 12 00 20 32 01 01 21",
    "12 00 12 01 31 02 05 11 21",
    "12 00 33 01 03 32 02 04",
    "12 00 32 03 03 11 21",
    "10 32 0b 0b",
    "12 00 32 00 0d 11 21",
    "12 00 12 07 30 03 09 12 03 21 20 11 21",
    "12 00 32 02 02 12 07 32 03 03 21 12 00 21 11 21",
    "12 00 32 06 06 11 21",
    "10 32 63 63",
    "12 00 32 07 07 11 21",
    "12 00 32 08 08",
    "12 00 32 00 ff 01 11 21",
    "12 00 32 00 ff 01 12 00 32 00 fe 01 20 21 32 05 05",
];

/// The rule of 1,024 states that no clip meets.
const THOUSAND: &str = "12 00 32 0a 0a 11 21";

/// Rules of many states, and how many. Each two are a rule that no clip meets and
/// one that is met; most of their states come from the counters, from the delays,
/// or from both.
const LARGE: [(usize, &str); 27] = [
    // About 1,000 states. One flag: mostly counters, mostly delays, both.
    (
        1_000,
        "12 00 33 00 0c 32 00 13 12 00 20 33 00 02 32 00 0b 21 11 21",
    ),
    (
        1_079,
        "12 00 33 00 02 32 00 06 12 00 20 33 00 09 32 00 11 21 12 00 32 00 04 33 00 10 21 12 00 \
         20 33 00 03 21",
    ),
    (
        1_009,
        "12 00 32 0a 0b 12 00 20 12 00 20 32 01 02 22 33 00 03 12 00 20 33 0a 0c 21 21",
    ),
    (
        1_035,
        "12 00 32 0a 0a 12 00 33 00 09 12 00 20 32 00 0c 21 21",
    ),
    (
        1_059,
        "12 00 33 00 03 32 07 0d 12 00 20 32 06 10 33 00 0a 21 11 21",
    ),
    (
        943,
        "12 00 33 00 02 32 08 0f 12 00 20 32 00 06 33 08 10 21 12 00 20 33 00 0b 21 12 00 32 00 \
         0c 21",
    ),
    // Four flags.
    (
        1_075,
        "12 00 20 12 01 32 00 04 22 33 00 04 12 02 12 03 30 00 03 12 00 12 02 21 32 00 04 12 02 \
         20 33 00 04 21 21 21",
    ),
    (
        917,
        "12 00 20 12 01 32 00 05 22 33 00 05 12 02 12 03 30 00 05 12 00 20 33 00 06 12 00 32 00 \
         07 21 21 21",
    ),
    (
        1_024,
        "12 00 12 01 21 32 02 03 12 02 12 03 22 33 07 07 21 12 01 32 01 01 21 12 01 20 33 01 01 \
         21",
    ),
    (
        1_016,
        "12 00 12 01 21 32 06 06 12 02 12 03 22 33 03 03 21 12 00 20 33 00 05 21",
    ),
    (
        1_078,
        "12 00 20 12 01 32 02 03 22 33 00 03 12 02 12 03 30 03 08 21 12 00 32 00 04 21 12 00 20 \
         33 00 04 21",
    ),
    (
        960,
        "12 00 20 12 01 32 05 05 22 33 00 02 12 02 12 03 30 01 04 21 12 00 20 33 00 04 21 12 00 \
         32 00 05 21",
    ),
    // All eight.
    (
        1_020,
        "12 00 20 12 01 32 00 01 22 33 00 02 12 02 12 03 30 00 02 12 04 12 05 31 00 01 12 06 12 \
         00 21 32 00 02 12 06 12 07 22 20 33 00 02 21 21 21 21",
    ),
    (
        1_080,
        "12 00 20 12 01 32 00 01 22 33 00 02 12 02 12 03 30 00 02 12 04 12 05 31 00 01 12 06 20 \
         33 00 02 12 06 12 07 21 32 00 03 21 21 21 21",
    ),
    (
        1_024,
        "12 00 12 01 21 32 01 01 12 02 12 03 22 33 02 02 12 04 12 05 30 02 02 12 06 32 04 04 12 \
         06 12 07 22 20 33 00 04 21 21 21 21",
    ),
    (
        980,
        "12 00 12 01 21 32 03 05 12 02 12 03 22 33 02 02 12 04 12 05 30 02 03 12 06 32 02 02 12 \
         06 12 07 22 20 33 00 01 21 21 21 21",
    ),
    (
        1_056,
        "12 00 20 12 01 32 00 03 22 33 00 02 12 02 12 03 30 02 02 21 12 04 12 05 31 00 01 21 12 \
         06 32 02 02 21 12 06 12 07 22 20 33 00 02 21",
    ),
    (
        1_080,
        "12 00 20 12 01 32 00 01 22 33 00 02 12 02 12 03 30 01 01 21 12 04 12 05 31 00 02 21 12 \
         06 32 03 03 21 12 06 12 07 22 20 33 00 02 21",
    ),
    // About 3,000 states: counters of four flags and of eight, delays of one flag and of
    // four, both of eight and of one.
    (
        3_358,
        "12 00 20 12 01 32 00 09 22 33 00 05 12 02 12 03 30 00 03 21 12 00 12 02 21 32 00 07 21 \
         12 02 20 33 00 07 21",
    ),
    (
        2_835,
        "12 00 20 12 01 32 00 01 22 33 00 02 12 02 12 03 30 00 03 21 12 04 12 05 31 00 01 21 12 \
         06 20 33 00 04 21 12 06 12 07 21 32 00 05 21",
    ),
    (
        3_075,
        "12 00 32 0c 0d 12 00 20 12 00 20 32 01 02 22 33 00 03 21 12 00 20 33 0c 0e 21",
    ),
    (
        3_066,
        "12 00 12 01 21 32 08 08 12 02 12 03 22 33 02 04 21 12 00 20 33 00 07 21",
    ),
    (
        3_072,
        "12 00 20 12 01 32 00 03 22 33 00 01 12 02 12 03 30 01 02 21 12 04 12 05 31 00 02 21 12 \
         06 32 04 04 21 12 06 12 07 22 20 33 00 04 21",
    ),
    (
        3_210,
        "12 00 33 00 05 32 09 19 12 00 20 32 00 01 33 08 18 21 12 00 20 33 00 0f 21 12 00 32 00 \
         10 21",
    ),
    // About 8,000 states: counters of eight flags, delays of one, both of four.
    (
        7_975,
        "12 00 20 12 01 32 00 03 22 33 00 03 12 02 12 03 30 00 03 12 04 12 05 31 00 03 12 06 12 \
         00 21 32 00 04 12 06 12 07 22 20 33 00 05 21 21 21 21",
    ),
    (
        8_206,
        "12 00 32 0d 0d 12 00 33 00 0c 12 00 20 32 00 0f 21 21",
    ),
    (
        8_000,
        "12 00 20 12 01 32 06 06 22 33 00 03 12 02 12 03 30 01 04 21 12 00 32 00 0d 21 12 00 20 \
         33 00 0d 21",
    ),
];

/// How large random rules are: so many of a thousand have a search of at most so
/// many trials.
const SIZES: [(usize, u64); 5] = [
    (700, 12 * TRIALS),
    (245, 25 * TRIALS),
    (44, 100 * TRIALS),
    (9, 400 * TRIALS),
    (2, 4_000 * TRIALS),
];

/// So many random rules.
const RANDOM: usize = 10_000;

/// The trials of one state: one for each byte.
const TRIALS: u64 = BYTES as u64;

/// What the clips of a formula come to. Only bytes of its own flags are tried, and
/// the trials are counted as if all were.
fn explored(f: &Formula, most: usize) -> Explored {
    let bytes = bytes_of_flags(f);
    let mut explored = explore(&emit(f), &bytes, most);
    explored.trials *= TRIALS / bytes.len() as u64;
    explored
}

/// A case with buffers of these lengths, full of a byte.
fn case(rule: &[u8], table: usize, witness: usize, fill: u8) -> Search {
    Search {
        rule: rule.to_vec(),
        table,
        witness,
        fill,
    }
}

/// A formula with buffers that are just long enough, full of one of the bytes in
/// turn.
fn enough(f: &Formula, turn: usize) -> Search {
    let table = explored(f, usize::MAX).states * RECORD;
    let fill = FILLS[turn % FILLS.len()];
    case(&write(f), table, f.horizon() + 1, fill)
}

/// How many bytes of the witness buffer a rule asks for. One that is refused asks
/// for none; it gets a few.
fn frames(rule: &[u8]) -> usize {
    load(rule).map_or(4, |rule| rule.horizon + 1)
}

/// Rules to search a clip for, each with two buffers.
pub fn searches(seed: u64) -> Vec<Search> {
    let mut out = edge_cases(seed);
    out.extend(large_cases());
    out.extend(random_cases(seed));
    out
}

/// Samples, rules at the edges of what the buffers hold, rules about each flag,
/// byte, counter and delay bit, and rules that are refused.
pub fn edge_cases(seed: u64) -> Vec<Search> {
    let mut out = Vec::new();
    sample_edges(&mut out);
    room_edges(&mut out);
    thousand_states(&mut out);
    few_records(&mut out);
    long_tables(&mut out);
    witness_edges(&mut out);
    every_flag(&mut out);
    every_byte(&mut out);
    every_counter(&mut out);
    every_delay_bit(&mut out);
    refusals(&mut generator(seed, 601), &mut out);
    out
}

/// Rules of many states, with tables of just so many records, of a record less, and
/// of a part of a record more.
pub fn large_cases() -> Vec<Search> {
    let mut out = Vec::new();
    for (k, (states, text)) in LARGE.into_iter().enumerate() {
        let rule = bytes(text);
        let enough = states * RECORD;
        let more = enough + 1 + 2 * (k % (RECORD / 2));
        for (turn, table) in [enough, enough - RECORD, more].into_iter().enumerate() {
            let fill = FILLS[(k + turn) % FILLS.len()];
            out.push(case(&rule, table, frames(&rule), fill));
        }
    }
    out
}

/// Random rules. The trials of each are counted here, which takes long.
pub fn random_cases(seed: u64) -> Vec<Search> {
    let mut random = generator(seed, 602);
    (0..RANDOM).map(|_| random_case(&mut random)).collect()
}

/// The samples, with tables of whole records and of a byte more or less, up to
/// eight records, and with witness buffers that are long enough or not.
fn sample_edges(out: &mut Vec<Search>) {
    for rule in samples() {
        let frames = frames(&rule);
        for fill in FILLS {
            for table in [
                0,
                1,
                RECORD - 1,
                RECORD,
                RECORD + 1,
                2 * RECORD - 1,
                2 * RECORD,
                2 * RECORD + 1,
                3 * RECORD - 1,
                3 * RECORD,
                4 * RECORD - 1,
                4 * RECORD,
                5 * RECORD - 1,
                7 * RECORD,
                8 * RECORD,
            ] {
                out.push(case(&rule, table, frames, fill));
            }
            for witness in [0, frames - 1, frames + 1, frames + 40] {
                out.push(case(&rule, 5 * RECORD, witness, fill));
                out.push(case(&rule, 0, witness, fill));
            }
        }
    }
}

/// Rules whose states are counted, with tables of just so many records, of a byte
/// or a record less, and of more; if the states are few, of every number.
fn room_edges(out: &mut Vec<Search>) {
    for text in COUNTED {
        let rule = load(&bytes(text)).expect("a good rule");
        let states = explored(&rule.formula, usize::MAX).states;
        let enough = states * RECORD;
        let mut tables = vec![enough, enough - 1];
        if states <= 100 {
            tables.extend([enough - RECORD, enough + 1]);
            tables.extend([enough + RECORD - 1, enough + RECORD]);
        }
        if states <= 16 {
            tables.extend((0..=states).map(|records| records * RECORD));
            tables.push(TABLE);
        }
        for (k, table) in tables.into_iter().enumerate() {
            let fill = FILLS[(k + states) % FILLS.len()];
            out.push(case(&bytes(text), table, rule.horizon + 1, fill));
        }
    }
}

/// The rule of 1,024 states: with one record, with those of the program's table, with
/// a byte less than all its states take, and with as much.
fn thousand_states(out: &mut Vec<Search>) {
    let rule = bytes(THOUSAND);
    let enough = 1_024 * RECORD;
    for (table, fill) in [
        (RECORD, 0xff),
        (TABLE, 0xa5),
        (enough - 1, 0xff),
        (enough, 0xa5),
    ] {
        out.push(case(&rule, table, frames(&rule), fill));
    }
}

/// Rules of many states with tables of few records, so that many states share a
/// place in the index before there is no room.
fn few_records(out: &mut Vec<Search>) {
    for (k, (_, text)) in LARGE.into_iter().enumerate() {
        let rule = bytes(text);
        for (turn, records) in [1, 2, 3, 5, 7].into_iter().enumerate() {
            let fill = FILLS[(k + turn) % FILLS.len()];
            out.push(case(&rule, records * RECORD, frames(&rule), fill));
        }
    }
}

/// Tables of as many records as there can be, and of more; the whole table is
/// zero afterwards, or none of it is touched.
fn long_tables(out: &mut Vec<Search>) {
    let most = MOST_RECORDS * RECORD;
    for text in [
        "12 00",
        "12 00 32 02 04",
        "12 00 33 00 02 12 00 20 32 01 01 21",
        "12 00 32 03 03 11 21",
        "21",
    ] {
        let rule = bytes(text);
        out.push(case(&rule, most + RECORD + 1, frames(&rule), 0xff));
    }
    let rule = bytes("12 00 32 02 04");
    out.push(case(&rule, most + RECORD + 1, 4, 0xff));
    out.push(case(&rule, most + RECORD + 1, 5, 0xa5));
    out.push(case(&rule, most + RECORD + 1, 5, 0x00));
    out.push(case(&rule, most + RECORD, 5, 0xff));
    out.push(case(&rule, most, 5, 0xff));
    out.push(case(&rule, most - 1, 5, 0xff));
}

/// The largest horizon, met at once; and a rule of horizon 31 whose first clip takes
/// all of the witness buffer that it asks for.
fn witness_edges(out: &mut Vec<Search>) {
    let mut far = Formula::Flag(0);
    for _ in 0..MOST_TIMED {
        far = eventually(0, LARGEST_BOUND, far);
    }
    for fill in FILLS {
        for witness in LARGEST_HORIZON - 1..=LARGEST_HORIZON + 2 {
            out.push(case(&write(&far), RECORD, witness, fill));
        }
        // Flag 5 within 32 frames, and not within 31.
        let long = bytes("12 05 32 00 1f 12 05 20 33 00 1e 21");
        for witness in [31, 32, 33, 100] {
            out.push(case(&long, 32 * RECORD, witness, fill));
        }
    }
}

/// Rules about each flag, and about each two of them in one frame or in two.
fn every_flag(out: &mut Vec<Search>) {
    let mut formulas = Vec::new();
    for i in 0..=LARGEST_FLAG {
        let has = || Formula::Flag(i);
        formulas.extend([has(), not(has()), and(has(), not(has()))]);
        for j in 0..=LARGEST_FLAG {
            let other = || Formula::Flag(j);
            let later = || eventually(1, 1, other());
            formulas.extend([
                and(has(), other()),
                and(not(has()), other()),
                and(has(), later()),
                and(not(has()), later()),
                Formula::Until(Window { a: 1, b: 2 }, Box::new(has()), Box::new(other())),
            ]);
        }
    }
    for (k, f) in formulas.iter().enumerate() {
        out.push(enough(f, k));
    }
}

/// Rules about all flags that are met by one byte only.
fn every_byte(out: &mut Vec<Search>) {
    for byte in 0..BYTES {
        let flag = |k: usize| match byte >> k & 1 {
            1 => Formula::Flag(k),
            _ => not(Formula::Flag(k)),
        };
        let flags = (0..=LARGEST_FLAG).map(flag).collect();
        out.push(enough(&all(flags), byte));
    }
}

/// Rules with all counters, of which one or two tell states apart, at each
/// place, and the others stay "none": a flag within four frames, and a flag within
/// four but not within three; and, by the last counter, a flag within 256 frames.
fn every_counter(out: &mut Vec<Search>) {
    let within = |b| eventually(0, b, Formula::Flag(2));
    let placed = |place: usize, own: Vec<Formula>| {
        let mut parts = vec![not(eventually(0, 0, Formula::False)); MOST_TIMED - own.len()];
        parts.splice(place..place, own);
        all(parts)
    };
    for place in 0..MOST_TIMED {
        let one = placed(place, vec![within(3)]);
        out.push(enough(&and(one, Formula::False), place));
    }
    for place in 0..MOST_TIMED - 1 {
        let two = placed(place, vec![within(3), not(within(2))]);
        out.push(enough(&two, place));
    }
    let last = placed(MOST_TIMED - 1, vec![within(LARGEST_BOUND)]);
    out.push(enough(&and(last, Formula::False), 0));
}

/// Rules in which two delay bits tell states apart, at each place; those before
/// them stay 0.
fn every_delay_bit(out: &mut Vec<Search>) {
    let later = || eventually(2, 2, Formula::Flag(1));
    out.push(enough(&later(), 0));
    for place in 1..=MOST_LOWER - 2 {
        let before = not(eventually(place, place, Formula::False));
        out.push(enough(&and(before.clone(), later()), place));
        out.push(enough(&and(and(before, later()), Formula::False), place));
    }
}

fn not(f: Formula) -> Formula {
    Formula::Not(Box::new(f))
}

fn and(l: Formula, r: Formula) -> Formula {
    Formula::And(Box::new(l), Box::new(r))
}

/// The "and" of some formulas, at least one.
fn all(parts: Vec<Formula>) -> Formula {
    parts.into_iter().reduce(and).expect("a part")
}

fn eventually(a: usize, b: usize, f: Formula) -> Formula {
    Formula::Eventually(Window { a, b }, Box::new(f))
}

/// Rules that are refused, at least one for each number, in its order.
fn refused_rules() -> Vec<Vec<u8>> {
    let mut rules: Vec<Vec<u8>> = [
        "",
        "13",
        "10 01",
        "12",
        "10 32 05",
        "12 80 00",
        "32 80 80",
        "12 08",
        "10 12 ff 7f",
        "12 00 32 04 02",
        "12 00 32 00 80 02",
        "21",
        "10 31 00 00",
    ]
    .map(bytes)
    .into();
    // Lower bounds of one more than their sum may be, a timed item too many, and an
    // item too many.
    let mut sum = Formula::Flag(0);
    for _ in 0..MOST_LOWER / LARGEST_BOUND {
        sum = eventually(LARGEST_BOUND, LARGEST_BOUND, sum);
    }
    let more = MOST_LOWER % LARGEST_BOUND + 1;
    rules.push(write(&eventually(more, more, sum)));
    let mut timed = Formula::True;
    for _ in 0..MOST_TIMED {
        timed = eventually(0, 0, timed);
    }
    let globally = Formula::Globally(Window { a: 0, b: 0 }, Box::new(timed));
    rules.push(write(&globally));
    rules.push([&[0x10], &[0x20; MOST_ITEMS][..]].concat());
    rules.extend(["10 10", "12 00 12 01", "12 00 32 00 ff 01 10 20"].map(bytes));
    rules
}

/// What is refused first, with both buffers long and short: the rule, 14 or 15;
/// and damaged rules.
fn refusals(random: &mut Random, out: &mut Vec<Search>) {
    for rule in refused_rules() {
        for table in [0, RECORD - 1, RECORD, 10 * RECORD] {
            for witness in [0, 1, 9] {
                for fill in FILLS {
                    out.push(case(&rule, table, witness, fill));
                }
            }
        }
    }
    // 100,000 bytes, one item of which is too many.
    let long = [&[0x10], &[0x20; 99_999][..]].concat();
    out.push(case(&long, 10 * RECORD, 9, 0xff));
    for _ in 0..500 {
        let rule = damaged_rule(random);
        // Where the damage leaves a rule, it may have any number of states.
        let table = random.below(8 * RECORD);
        let witness = (frames(&rule) + random.below(3)).saturating_sub(1);
        out.push(case(&rule, table, witness, random.pick(&FILLS)));
    }
}

/// A random formula with few or many items, small or large windows, and few or
/// many flags.
fn random_formula(random: &mut Random) -> Formula {
    if random.once_in(20) {
        return good_formula(random);
    }
    let mut budget = Budget {
        timed: random.between(1, 6),
        lower: random.pick(&[0, 2, 4, 8, 20, 60]),
        bound: random.pick(&[1, 3, 6, 12, 40, LARGEST_BOUND]),
        flag: random.pick(&[0, 0, 1, 1, 2, LARGEST_FLAG]),
    };
    let items = random.between(1, 14);
    searched_formula(random, items, &mut budget)
}

/// The length of a table: just enough for so many states, a byte less, a little
/// or much more, or anything less.
fn random_table(random: &mut Random, states: usize) -> usize {
    let enough = states * RECORD;
    match random.below(10) {
        0..=2 => enough,
        3 | 4 => enough - 1,
        5 => enough + random.below(RECORD),
        6 => enough + random.below(20 * RECORD),
        7 => random.between(0, enough),
        8 => enough + random.below(900 * RECORD),
        _ => random.pick(&[0, 1, RECORD - 1, RECORD, 2 * RECORD - 1, 2 * RECORD, TABLE]),
    }
}

/// The trials of one of the sizes, at most.
fn random_size(random: &mut Random) -> u64 {
    let mut left = random.below(1_000);
    for (often, trials) in SIZES {
        if left < often {
            return trials;
        }
        left -= often;
    }
    unreachable!("the sizes are a thousand");
}

/// A random rule of a random size, with a table that goes by its states and a
/// witness buffer that is long enough, or now and then not.
fn random_case(random: &mut Random) -> Search {
    let most = random_size(random);
    // The smallest size is for any rule, the others are not for small ones.
    let least = if most == SIZES[0].1 { 0 } else { most / 8 };
    let states = (most / TRIALS) as usize;
    loop {
        let f = random_formula(random);
        let found = explored(&f, states).states;
        // Only few have more states than are counted: there is no room for them.
        if found > states && !random.once_in(4) {
            continue;
        }
        let table = if found > states {
            random.between(0, states * RECORD)
        } else {
            random_table(random, found)
        };
        if explored(&f, room(table)).trials < least {
            continue;
        }
        let frames = f.horizon() + 1;
        let witness = match random.below(32) {
            0 => frames - 1,
            1 => random.between(0, frames),
            2..=5 => frames + 1,
            6..=9 => frames + random.below(40),
            _ => frames,
        };
        return case(&write(&f), table, witness, random.pick(&FILLS));
    }
}

#[cfg(test)]
mod tests {
    use super::*;
    use crate::meaning::verdicts;
    use crate::search::{search, Answer};

    /// The formula of a case that is searched: whose rule is not refused, nor 14.
    fn searched(case: &Search) -> Option<Formula> {
        let rule = load(&case.rule).ok()?;
        (case.witness > rule.horizon).then_some(rule.formula)
    }

    #[test]
    fn a_seed_fixes_the_list() {
        let cases = searches(1);
        assert_eq!(cases, searches(1));
        assert_ne!(cases, searches(2));
        // Some are for each counter and for each delay bit.
        let others = cases.len() - 2 * (MOST_TIMED + MOST_LOWER);
        assert!((13_500..14_500).contains(&others), "{others}");
        let long = |case: &&Search| case.table > 1_000_000;
        assert_eq!(cases.iter().filter(long).count(), 11);
        assert!(cases
            .iter()
            .all(|case| case.witness < LARGEST_HORIZON + 120));
        let trials = |case: &Search| {
            let f = searched(case)?;
            Some(explored(&f, room(case.table)).trials)
        };
        let random = &cases[cases.len() - RANDOM..];
        let counts: Vec<u64> = random.iter().filter_map(trials).collect();
        let sum: u64 = counts.iter().sum();
        println!("{} random cases have {sum} trials", counts.len());
        assert!(sum < 40_000_000, "{sum}");
        // The least numbers are about a fifth below those found.
        for (states, least) in [(20, 380), (60, 120), (500, 18), (1_000, 10)] {
            let count = counts.iter().filter(|&&n| n >= states * TRIALS).count();
            println!("{count} have {states} states or more");
            assert!(count >= least, "{count} have {states} states or more");
        }
    }

    #[test]
    fn large_rules_have_so_many_states_and_flags_and_are_met_in_turn() {
        let mut flags = [0; LARGEST_FLAG + 2];
        for (k, (states, text)) in LARGE.into_iter().enumerate() {
            let f = load(&bytes(text)).unwrap().formula;
            let explored = explored(&f, usize::MAX);
            assert_eq!(explored.states, states, "{text}");
            assert_eq!(explored.clip.is_some(), k % 2 == 1, "{text}");
            flags[bytes_of_flags(&f).len().ilog2() as usize] += 1;
        }
        assert_eq!(flags, [0, 9, 0, 0, 9, 0, 0, 0, 9]);
    }

    #[test]
    fn rules_of_many_numbers_of_states_are_counted() {
        let mut seen = Vec::new();
        let mut met = 0;
        for text in COUNTED {
            let rule = load(&bytes(text)).unwrap();
            let explored = explored(&rule.formula, usize::MAX);
            seen.push(explored.states);
            met += usize::from(explored.clip.is_some());
        }
        assert!(seen.is_sorted());
        seen.dedup();
        assert_eq!(
            seen,
            [1, 2, 3, 4, 7, 8, 12, 15, 32, 64, 100, 128, 256, 257, 271]
        );
        assert_eq!(met, 10);
    }

    #[test]
    fn rules_are_refused_by_each_number() {
        let number = |rule: &Vec<u8>| load(rule).unwrap_err().number;
        let mut numbers: Vec<u8> = refused_rules().iter().map(number).collect();
        assert!(numbers.is_sorted());
        numbers.dedup();
        assert_eq!(numbers, [1, 2, 3, 4, 5, 6, 7, 8, 9]);
    }

    /// Where a count stands: 1, up to 4, up to 16, up to 64, or more.
    fn size(count: usize) -> usize {
        [1, 4, 16, 64].iter().filter(|&&most| count > most).count()
    }

    /// Each case but the large ones is answered, and where no refusal comes before 15,
    /// once more by the bytes of the rule's flags, with many more records than there
    /// are.
    #[test]
    fn rules_are_met_or_not_and_refused_in_each_way() {
        let mut refused = [0; 17];
        let (mut met, mut none) = ([0; 5], [0; 5]);
        // Met although a state was found for which there is no room.
        let mut full = 0;
        for case in edge_cases(1).into_iter().chain(random_cases(1)) {
            let mut table = vec![case.fill; case.table];
            let mut witness = vec![case.fill; case.witness];
            let answer = search(&case.rule, &mut table, &mut witness);
            if let Err(refusal) = answer {
                refused[refusal.number as usize] += 1;
            }
            let Some(f) = searched(&case) else {
                assert!(answer.is_err(), "{case:?}");
                assert!(table.iter().all(|&byte| byte == case.fill), "{case:?}");
                continue;
            };
            assert!(table.iter().all(|&byte| byte == 0), "{case:?}");
            let room = room(table.len());
            let explored = explored(&f, 2 * room);
            let states = explored.states;
            let left = match answer {
                Ok(Answer::Met { length, .. }) => {
                    assert_eq!(answer, Ok(Answer::Met { length, states }), "{case:?}");
                    assert_eq!(explored.clip.as_deref(), Some(&witness[..length]));
                    assert!(verdicts(&f, &witness[..length])[0], "{case:?}");
                    met[size(length)] += 1;
                    full += usize::from(length > 1 && states == room);
                    &witness[length..]
                }
                Ok(Answer::None { .. }) => {
                    assert_eq!(answer, Ok(Answer::None { states }), "{case:?}");
                    assert_eq!(explored.clip, None, "{case:?}");
                    none[size(states)] += 1;
                    &witness
                }
                Err(refusal) => {
                    assert_eq!((refusal.number, refusal.place), (15, 0), "{case:?}");
                    assert!(states > room, "{case:?}");
                    &witness
                }
            };
            assert!(left.iter().all(|&byte| byte == case.fill), "{case:?}");
        }
        assert!(
            refused[2..=9].iter().all(|&count| count > 100),
            "{refused:?}"
        );
        assert!(refused[1] > 30 && refused[14] > 500 && refused[15] > 2_000);
        assert!(met[0] > 1_000 && met[1] > 1_000 && met[2] > 300, "{met:?}");
        assert!(none[..3].iter().all(|&count| count > 300), "{none:?}");
        assert!(met[3] + met[4] > 20 && none[3] + none[4] > 100);
        assert!(full > 500, "{full}");
    }
}
