//! The numbers of document 01, each written once; what follows from others is
//! computed from them.

/// A rule has at most this many items.
pub const MOST_ITEMS: usize = 64;
/// At most this many items of a rule are timed.
pub const MOST_TIMED: usize = 16;
/// The lower bounds of all timed items add up to at most this.
pub const MOST_LOWER: usize = 256;
/// The largest bound of a timed item.
pub const LARGEST_BOUND: usize = 255;
/// The largest flag.
pub const LARGEST_FLAG: usize = 7;
/// The largest horizon that a rule can have.
pub const LARGEST_HORIZON: usize = MOST_TIMED * LARGEST_BOUND;

/// Code has at most this many instructions.
pub const MOST_INSTRUCTIONS: usize = 320;
/// So many counters, one for each timed item of a rule.
pub const COUNTERS: usize = MOST_TIMED;
/// At most this many instructions are REACH, each of which takes a counter.
pub const MOST_REACHES: usize = COUNTERS;
/// So many delay bits, one for each frame of the lower bounds of a rule.
pub const DELAYS: usize = MOST_LOWER;
/// The distances of all LATER, which take as many delay bits, add up to at most this.
pub const MOST_DISTANCES: usize = DELAYS;
/// The largest w of a REACH.
pub const LARGEST_WIDTH: usize = LARGEST_BOUND;
/// The largest distance of a LATER; the smallest is 1.
pub const LARGEST_DISTANCE: usize = LARGEST_BOUND;
/// A clip that is run has at most this many frames.
pub const MOST_FRAMES: usize = 65_535;

/// A record takes so many bytes of the table.
pub const RECORD: usize = 80;
/// There is room for at most so many records.
pub const MOST_RECORDS: usize = 65_536;

/// A frame is one of so many bytes.
pub const BYTES: usize = 1 << (LARGEST_FLAG + 1);
