//! Layout calls: over lent slices, and by a strip that owns or borrows them.

use crate::answer::{Laid, Refused, reported};
use crate::lent::Lent;
use crate::sizes::REPORT_WORDS;
use crate::{Draft, Event, Node, raw};
use core::fmt;

/// Lays a table out at a width, with a step limit.
///
/// The root is the last node of `table`. Whatever `out` and `events` held, they are zero past what is in use, and all zero after a
/// refusal; `work` is zero afterwards. Clearing takes time: lend no more than a layout needs.
///
/// # Errors
///
/// Answers 1 to 9, with the place and the steps.
///
/// ```
/// use pursegable::{Event, Node, Refusal, layout, sizes::WORK_WORDS};
///
/// let (mut out, mut events, mut work) = ([0; 64], [Event::default(); 4], [0; WORK_WORDS]);
/// let table = [6, 0, 3, 3]; // a Text of 3 bytes and 3 columns
/// let laid = layout(&table, b"Dis", 42, 1000, &mut out, &mut events, &mut work)?;
/// assert_eq!((laid.text(), laid.steps), ("Dis", 1));
///
/// let refused = layout(&table, b"Di", 42, 1000, &mut out, &mut events, &mut work).unwrap_err();
/// assert_eq!((refused.why, refused.place), (Refusal::BadRange, Some(Node::from_number(0))));
/// # Ok::<(), pursegable::Refused>(())
/// ```
pub fn layout<'a>(
    table: &[u32],
    text: &[u8],
    width: u32,
    limit: u32,
    out: &'a mut [u8],
    events: &'a mut [Event],
    work: &mut [u32],
) -> Result<Laid<'a>, Refused> {
    let mut report = [0; REPORT_WORDS];
    // the events' words: nothing is copied, and the call takes half a kilobyte of stack where records take 50
    raw::layout_words(table, text, width, limit, out, raw::words_of(events), work, &mut report);
    reported(report, out, events)
}

/// Lays a whole sheet out, at [`SHEET_WIDTH`](crate::sizes::SHEET_WIDTH) columns and
/// [`DEFAULT_STEPS`](crate::sizes::DEFAULT_STEPS).
///
/// # Errors
///
/// As [`layout`](fn@layout).
///
/// ```
/// use pursegable::{Event, sheet, sizes::WORK_WORDS};
///
/// let (mut out, mut events, mut work) = ([0; 64], [Event::default(); 4], [0; WORK_WORDS]);
/// assert_eq!(sheet(&[6, 0, 3, 3], b"Dis", &mut out, &mut events, &mut work)?.text(), "Dis");
/// # Ok::<(), pursegable::Refused>(())
/// ```
pub fn sheet<'a>(
    table: &[u32],
    text: &[u8],
    out: &'a mut [u8],
    events: &'a mut [Event],
    work: &mut [u32],
) -> Result<Laid<'a>, Refused> {
    let mut report = [0; REPORT_WORDS];
    raw::sheet(table, text, out, events, work, &mut report);
    reported(report, out, events)
}

/// Lays a row label out, at [`LABEL_WIDTH`](crate::sizes::LABEL_WIDTH) columns and
/// [`DEFAULT_STEPS`](crate::sizes::DEFAULT_STEPS).
///
/// # Errors
///
/// As [`layout`](fn@layout).
///
/// ```
/// use pursegable::{Event, label, sizes::WORK_WORDS};
///
/// let (mut out, mut events, mut work) = ([0; 64], [Event::default(); 4], [0; WORK_WORDS]);
/// assert_eq!(label(&[6, 0, 3, 3], b"Dis", &mut out, &mut events, &mut work)?.text(), "Dis");
/// # Ok::<(), pursegable::Refused>(())
/// ```
pub fn label<'a>(
    table: &[u32],
    text: &[u8],
    out: &'a mut [u8],
    events: &'a mut [Event],
    work: &mut [u32],
) -> Result<Laid<'a>, Refused> {
    let mut report = [0; REPORT_WORDS];
    raw::label(table, text, out, events, work, &mut report);
    reported(report, out, events)
}

/// What drafts are laid out on, again and again: the output, the events and the work area, owned or borrowed.
///
/// ```
/// use pursegable::{Draft, Strip};
///
/// # fn main() -> Result<(), pursegable::Refused> {
/// let draft = Draft::new();
/// let row = draft.append("Fis", draft.nest(draft.append(draft.softline(), "neu beledern"), 2))?;
/// let mut strip = Strip::new();
/// assert_eq!(strip.layout(&draft, row, 12, 1000)?.text(), "Fis\n  neu beledern");
/// assert_eq!(strip.sheet(&draft, row)?.text(), "Fis neu beledern");
/// # Ok(())
/// # }
/// ```
pub struct Strip<'a> {
    out: Lent<'a, u8>,
    events: Lent<'a, Event>,
    work: Lent<'a, u32>,
}

#[cfg(feature = "alloc")]
impl Strip<'static> {
    /// A strip that owns all the room there can be: 65,536 bytes and 4,096 events.
    ///
    /// ```
    /// use pursegable::{Draft, Strip};
    ///
    /// let draft = Draft::new();
    /// let nil = draft.nil()?;
    /// assert_eq!(Strip::new().sheet(&draft, nil)?.text(), "");
    /// # Ok::<(), pursegable::Refused>(())
    /// ```
    #[must_use]
    pub fn new() -> Self {
        Self::with_room(crate::sizes::MOST_OUT_BYTES, crate::sizes::MOST_EVENTS)
    }

    /// A strip that owns room for so many bytes and events. Less room is laid out faster, for all of it is cleared.
    ///
    /// ```
    /// use pursegable::{Draft, Refusal, Strip};
    ///
    /// let draft = Draft::new();
    /// let note = draft.text("Dis")?;
    /// let refused = Strip::with_room(2, 0).sheet(&draft, note).unwrap_err();
    /// assert_eq!(refused.why, Refusal::NoOutput);
    /// # Ok::<(), pursegable::Refused>(())
    /// ```
    #[must_use]
    pub fn with_room(bytes: usize, events: usize) -> Self {
        Strip { out: Lent::owned(bytes), events: Lent::owned(events), work: Lent::owned(crate::sizes::WORK_WORDS) }
    }
}

#[cfg(feature = "alloc")]
impl Default for Strip<'static> {
    fn default() -> Self {
        Strip::new()
    }
}

impl<'a> Strip<'a> {
    /// A strip that borrows its room. A work area below [`WORK_WORDS`](crate::sizes::WORK_WORDS) is refused by every layout.
    ///
    /// ```
    /// use pursegable::{Draft, Event, Strip, sizes::WORK_WORDS};
    ///
    /// let (mut table, mut text) = ([0; 64], [0; 64]);
    /// let draft = Draft::lent(&mut table, &mut text);
    /// let note = draft.text("Dis")?;
    /// let (mut out, mut events, mut work) = ([0; 64], [Event::default(); 4], [0; WORK_WORDS]);
    /// let mut strip = Strip::lent(&mut out, &mut events, &mut work);
    /// assert_eq!(strip.sheet(&draft, note)?.text(), "Dis");
    /// # Ok::<(), pursegable::Refused>(())
    /// ```
    #[must_use]
    pub fn lent(out: &'a mut [u8], events: &'a mut [Event], work: &'a mut [u32]) -> Self {
        Strip { out: Lent::Borrowed(out), events: Lent::Borrowed(events), work: Lent::Borrowed(work) }
    }

    /// Lays a node of a draft out at a width, with a step limit.
    ///
    /// # Errors
    ///
    /// Answers 1 to 9, with the place and the steps; 11 if the draft has no such node.
    ///
    /// ```
    /// use pursegable::{Draft, Strip};
    ///
    /// let draft = Draft::new();
    /// let notes = draft.group(draft.intersperse(["Dis", "Fis", "B"], draft.line()))?;
    /// let mut strip = Strip::new();
    /// assert_eq!(strip.layout(&draft, notes, 9, 1000)?.text(), "Dis Fis B");
    /// assert_eq!(strip.layout(&draft, notes, 8, 1000)?.text(), "Dis\nFis\nB");
    /// # Ok::<(), pursegable::Refused>(())
    /// ```
    pub fn layout(&mut self, draft: &Draft<'_>, node: Node, width: u32, limit: u32) -> Result<Laid<'_>, Refused> {
        let Strip { out, events, work } = self;
        draft.upto(node, |table, text| layout(table, text, width, limit, out, events, work))?
    }

    /// Lays a node out as a whole sheet: [`sheet`](fn@sheet).
    ///
    /// # Errors
    ///
    /// As [`layout`](Strip::layout).
    ///
    /// ```
    /// use pursegable::{Draft, Strip};
    ///
    /// let draft = Draft::new();
    /// let note = draft.text("Dis")?;
    /// assert_eq!(Strip::new().sheet(&draft, note)?.text(), "Dis");
    /// # Ok::<(), pursegable::Refused>(())
    /// ```
    pub fn sheet(&mut self, draft: &Draft<'_>, node: Node) -> Result<Laid<'_>, Refused> {
        let Strip { out, events, work } = self;
        draft.upto(node, |table, text| sheet(table, text, out, events, work))?
    }

    /// Lays a node out as a row label: [`label`](fn@label).
    ///
    /// # Errors
    ///
    /// As [`layout`](Strip::layout).
    ///
    /// ```
    /// use pursegable::{Draft, Strip};
    ///
    /// let draft = Draft::new();
    /// let note = draft.text("Dis")?;
    /// assert_eq!(Strip::new().label(&draft, note)?.text(), "Dis");
    /// # Ok::<(), pursegable::Refused>(())
    /// ```
    pub fn label(&mut self, draft: &Draft<'_>, node: Node) -> Result<Laid<'_>, Refused> {
        let Strip { out, events, work } = self;
        draft.upto(node, |table, text| label(table, text, out, events, work))?
    }
}

impl fmt::Debug for Strip<'_> {
    fn fmt(&self, f: &mut fmt::Formatter<'_>) -> fmt::Result {
        let (bytes, events) = (self.out.len(), self.events.len());
        f.debug_struct("Strip").field("bytes", &bytes).field("events", &events).finish_non_exhaustive()
    }
}
