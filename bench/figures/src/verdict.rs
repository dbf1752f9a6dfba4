//! Whether all answers agree and all targets are met, over all rows.

use std::process::ExitCode;

#[derive(Default)]
pub struct Verdict {
    rows: usize,
    different: usize,
    targets: usize,
    missed: usize,
}

impl Verdict {
    /// Counts a row, and gives the word for it.
    pub fn answers(&mut self, agree: bool) -> &'static str {
        self.rows += 1;
        self.different += usize::from(!agree);
        if agree {
            "same"
        } else {
            "DIFFERENT"
        }
    }

    /// Counts a target, and gives the word for it: nothing if the figure is at most
    /// the limit.
    pub fn target(&mut self, figure: f64, limit: f64) -> &'static str {
        self.targets += 1;
        // A figure that is no number misses too.
        if figure <= limit {
            return "";
        }
        self.missed += 1;
        ", MISSED"
    }

    /// The last line and the status: 3 if there is no row, 1 if an answer differs, 2
    /// if only a target is missed, else 0.
    pub fn end(&self, part: &str) -> ExitCode {
        println!(
            "{part}: {} rows, {} different; {} targets, {} missed",
            self.rows, self.different, self.targets, self.missed
        );
        ExitCode::from(match (self.rows, self.different, self.missed) {
            (0, _, _) => 3,
            (_, 0, 0) => 0,
            (_, 0, _) => 2,
            _ => 1,
        })
    }
}
