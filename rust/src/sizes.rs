//! The sizes that calls accept, as `c/pursegable.h` has them.
//!
//! ```
//! use pursegable::sizes::*;
//!
//! assert_eq!(MOST_TABLE_WORDS, NODE_WORDS * MOST_NODES);
//! assert_eq!((MOST_TEXT_BYTES, MOST_OUT_BYTES, MOST_EVENTS, WORK_WORDS), (65_536, 65_536, 4_096, 16_384));
//! assert_eq!((MOST_WIDTH, MOST_STEPS, MOST_AMOUNT, MOST_AFFIXES), (65_535, 100_000_000, 1_000, 8));
//! assert!(SHEET_WIDTH <= MOST_WIDTH && LABEL_WIDTH <= MOST_WIDTH && DEFAULT_STEPS <= MOST_STEPS);
//! assert_eq!(size_of::<pursegable::Event>(), size_of::<u32>() * EVENT_WORDS);
//! assert_eq!((REPORT_WORDS, COUNTS_WORDS), (5, 3));
//! ```

/// Words to a node: kind, a, b, c.
pub const NODE_WORDS: usize = 4;
/// Nodes of a table.
pub const MOST_NODES: usize = 1_024;
/// Words of a table.
pub const MOST_TABLE_WORDS: usize = NODE_WORDS * MOST_NODES;
/// Bytes of text.
pub const MOST_TEXT_BYTES: usize = 65_536;
/// Bytes of output.
pub const MOST_OUT_BYTES: usize = 65_536;
/// Records of events.
pub const MOST_EVENTS: usize = 4_096;
/// Words of a work area that every call accepts; more are lawful.
pub const WORK_WORDS: usize = 16_384;
/// Columns of a strip.
pub const MOST_WIDTH: u32 = 65_535;
/// The highest step limit.
pub const MOST_STEPS: u32 = 100_000_000;
/// The highest amount of nest, hang, indent and block.
pub const MOST_AMOUNT: u32 = 1_000;
/// Affixes of a block.
pub const MOST_AFFIXES: usize = 8;
/// Columns of [`sheet`](crate::sheet).
pub const SHEET_WIDTH: u32 = 42;
/// Columns of [`label`](crate::label).
pub const LABEL_WIDTH: u32 = 42;
/// The step limit of [`sheet`](crate::sheet), [`label`](crate::label) and [`Draft::lay`](crate::Draft::lay).
pub const DEFAULT_STEPS: u32 = 1_000_000;
/// Words of an [`Event`](crate::Event).
pub const EVENT_WORDS: usize = 3;
/// Words of a report: answer, place, steps, used bytes, used events.
pub const REPORT_WORDS: usize = 5;
/// Words of the counts: nodes in use, text bytes in use, the node made.
pub const COUNTS_WORDS: usize = 3;

const _: () = assert!(size_of::<crate::Event>() == size_of::<u32>() * EVENT_WORDS);
