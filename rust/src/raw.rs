//! The exports as they are, over slices: numbers in, numbers out, as a C program calls them.
//!
//! A slice stands for a pointer and a length. The answer is returned, 0 if it is done; [`Refusal`](crate::Refusal) names the others.
//! `c/pursegable.h` says what each function does with every buffer. All unsafe code of the crate is here.
//!
//! ```
//! use pursegable::raw;
//!
//! let (mut table, mut text, mut counts) = ([0; 64], [0; 64], [0; 3]);
//! assert_eq!(raw::text(b"Dis", 3, &mut table, &mut text, &mut counts), 0);
//! assert_eq!((counts, &table[..4], &text[..3]), ([1, 3, 0], &[6, 0, 3, 3][..], &b"Dis"[..]));
//! ```

mod export;

use crate::Event;
use crate::sizes::EVENT_WORDS;

/// Lays a table out: `pursegable_layout`.
///
/// ```
/// use pursegable::{Event, raw, sizes::WORK_WORDS};
///
/// let (mut out, mut events, mut work, mut report) = ([0; 8], [Event::default(); 2], [0; WORK_WORDS], [0; 5]);
/// let answer = raw::layout(&[6, 0, 3, 3], b"Dis", 42, 1000, &mut out, &mut events, &mut work, &mut report);
/// assert_eq!((answer, report, &out[..3]), (0, [0, 0, 1, 3, 0], &b"Dis"[..]));
/// ```
#[allow(clippy::too_many_arguments)] // as many as the export has
pub fn layout(
    table: &[u32],
    text: &[u8],
    width: u32,
    limit: u32,
    out: &mut [u8],
    events: &mut [Event],
    work: &mut [u32],
    report: &mut [u32],
) -> u32 {
    // SAFETY: each pointer and length is a slice's, and nobody else borrows what is written. For such the library is proved to write
    // nothing outside of them, whatever they hold.
    unsafe {
        export::pursegable_layout(
            table.as_ptr(),
            table.len(),
            text.as_ptr(),
            text.len(),
            width,
            limit,
            out.as_mut_ptr(),
            out.len(),
            events.as_mut_ptr(),
            events.len(),
            work.as_mut_ptr(),
            work.len(),
            report.as_mut_ptr(),
            report.len(),
        )
    }
}

/// Lays a sheet out: `pursegable_sheet`.
///
/// ```
/// use pursegable::{Event, raw, sizes::WORK_WORDS};
///
/// let (mut out, mut events, mut work, mut report) = ([0; 8], [Event::default(); 2], [0; WORK_WORDS], [0; 5]);
/// assert_eq!(raw::sheet(&[10, 0, 0, 0], b"", &mut out, &mut events, &mut work, &mut report), 6);
/// assert_eq!(report, [6, 0, 1, 0, 0]);
/// ```
pub fn sheet(table: &[u32], text: &[u8], out: &mut [u8], events: &mut [Event], work: &mut [u32], report: &mut [u32]) -> u32 {
    // SAFETY: as in `layout`.
    unsafe {
        export::pursegable_sheet(
            table.as_ptr(),
            table.len(),
            text.as_ptr(),
            text.len(),
            out.as_mut_ptr(),
            out.len(),
            events.as_mut_ptr(),
            events.len(),
            work.as_mut_ptr(),
            work.len(),
            report.as_mut_ptr(),
            report.len(),
        )
    }
}

/// Lays a label out: `pursegable_label`.
///
/// ```
/// use pursegable::{Event, raw, sizes::WORK_WORDS};
///
/// let (mut out, mut events, mut work, mut report) = ([0; 8], [Event::default(); 2], [0; WORK_WORDS], [0; 5]);
/// assert_eq!(raw::label(&[11, 0, 0, 0], b"", &mut out, &mut events, &mut work, &mut report), 2);
/// ```
pub fn label(table: &[u32], text: &[u8], out: &mut [u8], events: &mut [Event], work: &mut [u32], report: &mut [u32]) -> u32 {
    // SAFETY: as in `layout`.
    unsafe {
        export::pursegable_label(
            table.as_ptr(),
            table.len(),
            text.as_ptr(),
            text.len(),
            out.as_mut_ptr(),
            out.len(),
            events.as_mut_ptr(),
            events.len(),
            work.as_mut_ptr(),
            work.len(),
            report.as_mut_ptr(),
            report.len(),
        )
    }
}

/// As [`layout`], with the events as words: `pursegable_layout_words`.
///
/// ```
/// use pursegable::{raw, sizes::WORK_WORDS};
///
/// let (mut out, mut events, mut work, mut report) = ([0; 8], [0; 6], [0; WORK_WORDS], [0; 5]);
/// let table = [6, 0, 3, 3, 7, 0, 9, 0];
/// assert_eq!(raw::layout_words(&table, b"Dis", 42, 1000, &mut out, &mut events, &mut work, &mut report), 0);
/// assert_eq!(events, [0, 1, 9, 3, 0, 9]);
/// ```
#[allow(clippy::too_many_arguments)] // as many as the export has
pub fn layout_words(
    table: &[u32],
    text: &[u8],
    width: u32,
    limit: u32,
    out: &mut [u8],
    events: &mut [u32],
    work: &mut [u32],
    report: &mut [u32],
) -> u32 {
    // SAFETY: as in `layout`.
    unsafe {
        export::pursegable_layout_words(
            table.as_ptr(),
            table.len(),
            text.as_ptr(),
            text.len(),
            width,
            limit,
            out.as_mut_ptr(),
            out.len(),
            events.as_mut_ptr(),
            events.len(),
            work.as_mut_ptr(),
            work.len(),
            report.as_mut_ptr(),
            report.len(),
        )
    }
}

/// Why a group broke: `pursegable_why`.
///
/// ```
/// use pursegable::{raw, sizes::WORK_WORDS};
///
/// let (mut out, mut events, mut work, mut report) = ([0; 8], [0; 6], [0; WORK_WORDS], [0; 5]);
/// let table = [6, 0, 3, 3, 2, 0, 0, 0];
/// assert_eq!(raw::why(&table, b"Dis", 2, 1, 1, &mut out, &mut events, &mut work, &mut report), 0);
/// assert_eq!(report, [0, 1, 3, 0, 3]);
/// ```
#[allow(clippy::too_many_arguments)] // as many as the export has
pub fn why(
    table: &[u32],
    text: &[u8],
    width: u32,
    limit: u32,
    step: u32,
    out: &mut [u8],
    events: &mut [u32],
    work: &mut [u32],
    report: &mut [u32],
) -> u32 {
    // SAFETY: as in `layout`.
    unsafe {
        export::pursegable_why(
            table.as_ptr(),
            table.len(),
            text.as_ptr(),
            text.len(),
            width,
            limit,
            step,
            out.as_mut_ptr(),
            out.len(),
            events.as_mut_ptr(),
            events.len(),
            work.as_mut_ptr(),
            work.len(),
            report.as_mut_ptr(),
            report.len(),
        )
    }
}

/// Makes what a number names, of words as a node has them: `pursegable_make`.
///
/// ```
/// use pursegable::raw;
///
/// let (mut table, mut text, mut counts) = ([0; 64], [0; 64], [0; 3]);
/// let line = 12;
/// assert_eq!(raw::make(line, 0, 0, 0, &mut table, &mut text, &mut counts), 0);
/// assert_eq!(counts, [3, 1, 2]);
/// ```
pub fn make(what: u32, a: u32, b: u32, c: u32, table: &mut [u32], text: &mut [u8], counts: &mut [u32]) -> u32 {
    // SAFETY: as in `layout`.
    unsafe {
        export::pursegable_make(
            what,
            a,
            b,
            c,
            table.as_mut_ptr(),
            table.len(),
            text.as_mut_ptr(),
            text.len(),
            counts.as_mut_ptr(),
            counts.len(),
        )
    }
}

/// A Text of these bytes, so many columns wide: `pursegable_text`.
///
/// ```
/// use pursegable::raw;
///
/// let (mut table, mut text, mut counts) = ([0; 64], [0; 64], [0; 3]);
/// assert_eq!(raw::text(b"\xff", 1, &mut table, &mut text, &mut counts), 5);
/// ```
pub fn text(bytes: &[u8], columns: u32, table: &mut [u32], text: &mut [u8], counts: &mut [u32]) -> u32 {
    // SAFETY: as in `layout`.
    unsafe {
        export::pursegable_text(
            bytes.as_ptr(),
            bytes.len(),
            columns,
            table.as_mut_ptr(),
            table.len(),
            text.as_mut_ptr(),
            text.len(),
            counts.as_mut_ptr(),
            counts.len(),
        )
    }
}

/// The nodes joined: `pursegable_concat`.
///
/// ```
/// use pursegable::raw;
///
/// let (mut table, text, mut counts) = ([0; 64], [0; 64], [0; 3]);
/// assert_eq!(raw::concat(&[], &mut table, &text, &mut counts), 0);
/// assert_eq!(counts, [1, 0, 0]);
/// ```
pub fn concat(nodes: &[u32], table: &mut [u32], text: &[u8], counts: &mut [u32]) -> u32 {
    // SAFETY: as in `layout`.
    unsafe {
        export::pursegable_concat(
            nodes.as_ptr(),
            nodes.len(),
            table.as_mut_ptr(),
            table.len(),
            text.as_ptr(),
            text.len(),
            counts.as_mut_ptr(),
            counts.len(),
        )
    }
}

/// The nodes joined with the separator between each two: `pursegable_intersperse`.
///
/// ```
/// use pursegable::raw;
///
/// let (mut table, text, mut counts) = ([0; 64], [0; 64], [0; 3]);
/// assert_eq!(raw::intersperse(&[], 0, &mut table, &text, &mut counts), 11);
/// ```
pub fn intersperse(nodes: &[u32], separator: u32, table: &mut [u32], text: &[u8], counts: &mut [u32]) -> u32 {
    // SAFETY: as in `layout`.
    unsafe {
        export::pursegable_intersperse(
            nodes.as_ptr(),
            nodes.len(),
            separator,
            table.as_mut_ptr(),
            table.len(),
            text.as_ptr(),
            text.len(),
            counts.as_mut_ptr(),
            counts.len(),
        )
    }
}

/// The block layouts of a body between affixes: `pursegable_block`.
///
/// ```
/// use pursegable::raw;
///
/// let (mut table, text, mut counts) = ([0; 64], [0; 64], [0; 3]);
/// assert_eq!(raw::block(0, 4, 0, &[0], &[], &[], &mut table, &text, &mut counts), 1);
/// ```
#[allow(clippy::too_many_arguments)] // as many as the export has
pub fn block(
    body: u32,
    amount: u32,
    way: u32,
    prefixes: &[u32],
    suffixes: &[u32],
    nests: &[u8],
    table: &mut [u32],
    text: &[u8],
    counts: &mut [u32],
) -> u32 {
    // SAFETY: as in `layout`.
    unsafe {
        export::pursegable_block(
            body,
            amount,
            way,
            prefixes.as_ptr(),
            prefixes.len(),
            suffixes.as_ptr(),
            suffixes.len(),
            nests.as_ptr(),
            nests.len(),
            table.as_mut_ptr(),
            table.len(),
            text.as_ptr(),
            text.len(),
            counts.as_mut_ptr(),
            counts.len(),
        )
    }
}

/// Event records as their words, to be lent to [`layout_words`].
pub(crate) fn words_of(events: &mut [Event]) -> &mut [u32] {
    let words = events.len() * EVENT_WORDS;
    // SAFETY: an `Event` is `repr(C)` and is `EVENT_WORDS` words and nothing else (sizes.rs asserts it), any words are one, and the
    // events stay borrowed as long as their words.
    unsafe { core::slice::from_raw_parts_mut(events.as_mut_ptr().cast(), words) }
}
