//! Timing by turns: several programs do the same job in one process, round by round,
//! and the best round of each counts.

use std::time::Instant;

/// How many rounds there are: at least `least`, and then more until `seconds` have
/// passed or `most` are done.
pub struct Rounds {
    pub least: usize,
    pub most: usize,
    pub seconds: f64,
}

/// What the rounds come to.
pub struct Timed<T, const PROGRAMS: usize> {
    /// The best time of each program.
    pub seconds: [f64; PROGRAMS],
    /// The answer that was given first.
    pub answer: T,
    /// Whether all programs gave that answer in all rounds.
    pub agree: bool,
}

/// Calls the programs by turns; each round begins with another one.
pub fn by_turns<T: PartialEq, const PROGRAMS: usize>(
    rounds: &Rounds,
    programs: [&mut dyn FnMut() -> T; PROGRAMS],
) -> Timed<T, PROGRAMS> {
    let mut best = [f64::INFINITY; PROGRAMS];
    let mut first = None;
    let mut agree = true;
    let began = Instant::now();
    let mut round = 0;
    while round < rounds.least
        || (round < rounds.most && began.elapsed().as_secs_f64() < rounds.seconds)
    {
        for turn in 0..PROGRAMS {
            let program = (round + turn) % PROGRAMS;
            let start = Instant::now();
            let answer = programs[program]();
            best[program] = best[program].min(start.elapsed().as_secs_f64());
            match &first {
                None => first = Some(answer),
                Some(first) => agree &= *first == answer,
            }
        }
        round += 1;
    }
    Timed {
        seconds: best,
        answer: first.expect("there is a round"),
        agree,
    }
}
