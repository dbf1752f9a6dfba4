//! The comparison: the library and the second program answer every case of the lists
//! of a seed. Of a call the whole word is the same, and so is every byte of every
//! buffer after it, of those that are only read and of the guards too; of a program
//! the line that it prints.

use crate::call::{lent, Call, Outcome};
use crate::entry::ENTRIES;
use crate::lent::{Layout, Lent};
use second::entry::Case;
use second::random::Random;
use second::text::words_of_bytes;
use std::iter;

/// A list of cases.
pub struct List {
    pub name: &'static str,
    /// It has so many cases at least, about a fifth below those of seed 1.
    pub least: usize,
    /// Whether it takes long, to answer or to make, or is answered by a program. It is
    /// left out where only a share is taken: under valgrind one large search takes
    /// longer than all the others, and a program is another process.
    pub long: bool,
    /// Compares its cases of a seed.
    pub compare: fn(&List, u64, &mut Comparison),
}

/// All lists of a seed together have so many cases at least.
const LEAST: usize = 100_000;
/// So many differences are shown.
const SHOWN: usize = 5;
/// Of a line so many characters are shown.
const CHARACTERS: usize = 300;
/// Of a buffer that differs so many bytes are shown.
const BYTES: usize = 24;

/// Compares all cases of a seed, or one in `share`, and writes how many there are in
/// each list. Answers whether there is no difference, and there are enough in each list
/// and in all.
pub fn compare(seed: u64, share: usize) -> bool {
    let mut all = Comparison {
        seed,
        share,
        total: 0,
        differences: 0,
        enough: true,
    };
    let lists = ENTRIES.iter().flat_map(|entry| entry.lists);
    for list in lists.filter(|list| share == 1 || !list.long) {
        (list.compare)(list, seed, &mut all);
    }
    println!(
        "seed {seed}: {} cases, {} differences",
        all.total, all.differences
    );
    all.has(all.total, LEAST, "all lists");
    all.enough && all.differences == 0
}

/// What is compared, and what came of it so far.
pub struct Comparison {
    seed: u64,
    share: usize,
    total: usize,
    differences: usize,
    enough: bool,
}

impl Comparison {
    /// Compares calls.
    pub fn calls<const BUFFERS: usize>(&mut self, list: &List, calls: Vec<impl Call<BUFFERS>>) {
        let taken = taken(self.seed, self.share, calls.len());
        self.count(list, taken.len());
        for number in taken {
            let call = &calls[number];
            if let Some((second, library)) = difference(call, number, self.share) {
                let words = words_of_outcome(&second, &library);
                let other = words_of_outcome(&library, &second);
                self.differ(list, number, &call.words(), &words, &other);
            }
        }
    }

    /// Compares all cases of a list by the lines that a program answers.
    pub fn lines<C: Case>(
        &mut self,
        list: &List,
        cases: Vec<C>,
        answers: impl Fn(&[C]) -> Result<Vec<String>, String>,
    ) {
        self.count(list, cases.len());
        let mut lines = answers(&cases)
            .unwrap_or_else(|words| vec![words])
            .into_iter();
        for (number, case) in cases.iter().enumerate() {
            let second = case.answer();
            let library = lines.next().unwrap_or_else(|| "no line".to_string());
            if second != library {
                let from = same_characters(&second, &library);
                let [second, library] = [second, library].map(|line| words_from(&line, from));
                self.differ(list, number, &case.line(), &second, &library);
            }
        }
        if lines.next().is_some() {
            self.differ(list, cases.len(), "no case", "no line", "more lines");
        }
    }

    /// Counts the cases of a list.
    fn count(&mut self, list: &List, cases: usize) {
        println!("{}: {cases} cases", list.name);
        self.total += cases;
        self.has(cases, list.least, list.name);
    }

    /// Sees to it that there are enough cases.
    fn has(&mut self, cases: usize, least: usize, name: &str) {
        if let Some(least) = missed(cases, least, self.share) {
            println!("seed {}, {name}: fewer than {least} cases", self.seed);
            self.enough = false;
        }
    }

    /// Counts a difference, and shows it.
    fn differ(&mut self, list: &List, number: usize, case: &str, second: &str, library: &str) {
        self.differences += 1;
        if self.differences <= SHOWN {
            println!("seed {}, {}, case {}:", self.seed, list.name, number + 1);
            println!("  {}", case.chars().take(CHARACTERS).collect::<String>());
            println!("  second program: {second}");
            println!("  library: {library}");
        }
    }
}

/// The number of cases that there should be at least, if fewer are taken: the least
/// number where all are taken, and of any share one.
fn missed(taken: usize, least: usize, share: usize) -> Option<usize> {
    let least = if share == 1 { least } else { 1 };
    (taken < least).then_some(least)
}

/// Of so many numbers one out of each `share` in turn; which one goes by the seed.
fn taken(seed: u64, share: usize, count: usize) -> Vec<usize> {
    let mut random = Random::new(seed);
    let one = |first| first + random.below(share);
    let taken = (0..count).step_by(share).map(one);
    taken.filter(|&number| number < count).collect()
}

/// The two outcomes of a call, if they differ. A share of the calls is for
/// valgrind, which sees more on bare buffers; so there each is made on such too.
fn difference<const BUFFERS: usize>(
    call: &impl Call<BUFFERS>,
    number: usize,
    share: usize,
) -> Option<(Outcome<BUFFERS>, Outcome<BUFFERS>)> {
    let bare = (share > 1).then_some(Lent::bare as Layout);
    iter::once(Lent::new as Layout).chain(bare).find_map(|lay| {
        let mut buffers = lent(call, number, lay);
        let mut others = buffers.clone();
        let second = Outcome {
            word: call.by_second(&mut others),
            buffers: others,
        };
        let library = Outcome {
            word: call.by_library(&mut buffers),
            buffers,
        };
        (library != second).then_some((second, library))
    })
}

/// The word, and of each buffer that differs from that of another outcome its
/// length and some bytes from the first other one on.
fn words_of_outcome<const BUFFERS: usize>(
    outcome: &Outcome<BUFFERS>,
    other: &Outcome<BUFFERS>,
) -> String {
    let mut words = format!("word {:016x}", outcome.word);
    for (k, (lent, other)) in outcome.buffers.iter().zip(&other.buffers).enumerate() {
        if lent != other {
            let place = lent.difference(other).unwrap_or(0);
            let (length, bytes) = (lent.length(), words_of_bytes(lent.from(place, BYTES)));
            words += &format!(", buffer {k} of {length} bytes from byte {place}: {bytes}");
        }
    }
    words
}

/// How many characters two lines have in common at their start.
fn same_characters(first: &str, second: &str) -> usize {
    let both = first.chars().zip(second.chars());
    both.take_while(|(first, second)| first == second).count()
}

/// Some characters of a line, from a little before a place on.
fn words_from(line: &str, place: usize) -> String {
    let start = place.saturating_sub(CHARACTERS / 3);
    let some: String = line.chars().skip(start).take(CHARACTERS).collect();
    format!("from character {start}: {some}")
}

#[cfg(test)]
mod tests {
    use super::*;
    use second::load::case::Load;

    #[test]
    fn one_out_of_each_share_is_taken() {
        assert_eq!(taken(1, 1, 5), [0, 1, 2, 3, 4]);
        assert_eq!(taken(1, 100, 0), []);
        for seed in 0..20 {
            let taken = taken(seed, 100, 10_000);
            assert_eq!(taken.len(), 100);
            for (k, number) in taken.into_iter().enumerate() {
                assert_eq!(number / 100, k);
            }
        }
        assert!(taken(1, 100, 250).len() <= 3);
        assert_ne!(taken(1, 100, 10_000), taken(2, 100, 10_000));
    }

    #[test]
    fn too_few_calls_are_missed() {
        assert_eq!(missed(100, 100, 1), None);
        assert_eq!(missed(99, 100, 1), Some(100));
        assert_eq!(missed(1, 100, 2), None);
        assert_eq!(missed(0, 100, 2), Some(1));
    }

    #[test]
    fn a_share_that_takes_nothing_of_a_list_fails() {
        assert!(!compare(1, usize::MAX));
    }

    /// The differences and whether there are enough cases, where a program answers
    /// three rules by these lines.
    fn compared(least: usize, lines: Result<Vec<String>, String>) -> (usize, bool) {
        let list = List {
            name: "three",
            least,
            long: true,
            compare: |_, _, _| {},
        };
        let mut all = Comparison {
            seed: 1,
            share: 1,
            total: 0,
            differences: 0,
            enough: true,
        };
        let rules = [vec![0x10], vec![], vec![0x12, 0x08]];
        let cases: Vec<Load> = rules.map(|rule| Load { rule }).into();
        all.lines(&list, cases, |_| lines.clone());
        assert_eq!(all.total, 3);
        (all.differences, all.enough)
    }

    #[test]
    fn each_other_line_is_a_difference() {
        let lines = ["accepted 1 0", "refused 1 0", "refused 5 0"].map(str::to_string);
        assert_eq!(compared(3, Ok(lines.to_vec())), (0, true));
        assert_eq!(compared(4, Ok(lines.to_vec())), (0, false));
        assert_eq!(compared(3, Ok(lines[..2].to_vec())), (1, true));
        assert_eq!(compared(3, Ok([&lines[..], &lines].concat())), (1, true));
        assert_eq!(compared(3, Ok(vec![lines[0].clone(); 3])), (2, true));
        assert_eq!(compared(3, Err("it is missing".to_string())), (3, true));
    }
}
