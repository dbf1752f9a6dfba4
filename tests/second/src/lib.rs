//! An independent reference for rules, the emitter, the sequencer, the search and
//! the makers, written straight from document 01.
//!
//! Each module does one job in the plainest way. Nothing here is shared with
//! the proved library: no code and no tables.
//!
//! What the entries rest on:
//!
//! - `limits`: the numbers of document 01.
//! - `number`: the numbers inside items.
//! - `refusal`: refusals.
//! - `formula`: formulas as trees, and as rule bytes.
//! - `meaning`: whether a formula holds on a clip.
//! - `instruction`: the sequencer's instructions, and their bytes.
//! - `machine`: the registers, and one frame through code.
//! - `random`: repeatable random numbers, rules, code, registers and clips.
//! - `text`: bytes and buffers as text.
//! - `stream`: cases for the program `runs`.
//!
//! Each entry is a folder. It does the entry's job, `case` has its cases as lines of
//! text and their answers, and `cases` the list for a seed. `entry` has what is common
//! to all, and the list of them:
//!
//! - `load`: loading a rule.
//! - `load_code`: loading code.
//! - `step`: one frame through code, from any registers.
//! - `run`: code over a clip.
//! - `emit`: a rule as code.
//! - `verdicts`: whether a rule holds on a clip, from each frame on.
//! - `search`: the search for the first clip that meets a rule; `every_clip` does the
//!   same for tiny rules, by trying every clip.
//! - `makers`: new rules from rules.
//! - `standing`: the program that prints a rule's standing.

pub mod emit;
pub mod entry;
pub mod formula;
pub mod instruction;
pub mod limits;
pub mod load;
pub mod load_code;
pub mod machine;
pub mod makers;
pub mod meaning;
pub mod number;
pub mod random;
pub mod refusal;
pub mod run;
pub mod search;
pub mod standing;
pub mod step;
pub mod stream;
pub mod text;
pub mod verdicts;
