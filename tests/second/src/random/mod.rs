//! Repeatable random numbers, and what the lists of cases draw by them.

pub mod code;
pub mod rule;

/// The splitmix64 generator. The same seed gives the same numbers everywhere.
pub struct Random {
    state: u64,
}

impl Random {
    pub fn new(seed: u64) -> Random {
        Random { state: seed }
    }

    pub fn draw(&mut self) -> u64 {
        self.state = self.state.wrapping_add(0x9e37_79b9_7f4a_7c15);
        let mut z = self.state;
        z = (z ^ (z >> 30)).wrapping_mul(0xbf58_476d_1ce4_e5b9);
        z = (z ^ (z >> 27)).wrapping_mul(0x94d0_49bb_1331_11eb);
        z ^ (z >> 31)
    }

    /// A number below `count`, which is not 0.
    pub fn below(&mut self, count: usize) -> usize {
        (self.draw() % count as u64) as usize
    }

    /// A number from `first` to `last`, both included.
    pub fn between(&mut self, first: usize, last: usize) -> usize {
        first + self.below(last - first + 1)
    }

    /// True once in `count` times.
    pub fn once_in(&mut self, count: usize) -> bool {
        self.below(count) == 0
    }

    pub fn pick<T: Copy>(&mut self, from: &[T]) -> T {
        from[self.below(from.len())]
    }

    pub fn byte(&mut self) -> u8 {
        self.below(256) as u8
    }
}

/// A generator for one part of a list of cases, so that a change in one part
/// leaves the others as they are.
pub fn generator(seed: u64, part: u64) -> Random {
    let mut first = Random::new(seed);
    Random::new(first.draw() ^ part.wrapping_mul(0x1_0000_0001))
}

/// So many bytes of any value.
pub fn any_bytes(random: &mut Random, count: usize) -> Vec<u8> {
    (0..count).map(|_| random.byte()).collect()
}

/// The length of a buffer for an answer of so many bytes: as long, a byte shorter
/// or longer, empty, much longer, or any shorter.
pub fn room_around(random: &mut Random, length: usize) -> usize {
    match random.below(10) {
        0 => length.saturating_sub(1),
        1..=4 => length,
        5 => length + 1,
        6 => 0,
        7 | 8 => length + random.between(2, 300),
        _ => random.between(0, length),
    }
}

#[cfg(test)]
mod tests {
    use super::*;

    #[test]
    fn the_generator_gives_the_known_first_numbers() {
        // The published first values of splitmix64 for seed 0.
        let mut random = Random::new(0);
        assert_eq!(random.draw(), 0xe220_a839_7b1d_cdaf);
        assert_eq!(random.draw(), 0x6e78_9e6a_a1b9_65f4);
        assert_eq!(random.draw(), 0x06c4_5d18_8009_454f);
    }
}
