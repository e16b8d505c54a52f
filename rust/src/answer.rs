//! What a call answers: a number, which is a refusal if it is not 0, and the words of a report.

use crate::event::{Event, Events, Pieces};
use crate::{Node, sizes::REPORT_WORDS};
use core::error::Error;
use core::fmt;

/// Why a call was refused: a case for each number that the library answers but 0.
///
/// ```
/// use pursegable::{Draft, Refusal};
///
/// let draft = Draft::with_room(1, 3);
/// assert_eq!(draft.text("Dis").map(|node| node.number()), Ok(0));
/// let refusal = draft.text("E").unwrap_err();
/// assert_eq!(refusal, Refusal::NoText);
/// assert_eq!(refusal.number(), 12);
/// assert_eq!(refusal.to_string(), "the bytes don't fit the text (12)");
/// let error: Box<dyn std::error::Error> = refusal.into();
/// # let _ = error;
/// ```
#[non_exhaustive]
#[derive(Clone, Copy, Debug, PartialEq, Eq, Hash)]
pub enum Refusal {
    /// 1: a size, the width or the step limit is out of range ([`sizes`](crate::sizes) has them); of a constructor, the counts are past
    /// the table or text; of a block, more than 8 affixes.
    BadSize,
    /// 2: a kind is unknown, or an unused word is not 0.
    BadKind,
    /// 3: a child is not below its parent, or an amount is out of range.
    BadChild,
    /// 4: a text's range leaves the text bytes.
    BadRange,
    /// 5: a text is not well-formed UTF-8, has a line feed in it, or its columns are wrong.
    BadText,
    /// 6: a Fail was met outside every trial.
    FailMet,
    /// 7: a node is due and the steps are used up.
    NoSteps,
    /// 8: the bytes don't fit the output.
    NoOutput,
    /// 9: an event doesn't fit.
    NoEvents,
    /// 10: the nodes don't fit the table.
    NoNodes,
    /// 11: an operand is no present node.
    BadOperand,
    /// 12: the bytes don't fit the text.
    NoText,
    /// 13: the step is no visit of a group met broken in layout.
    NoVisit,
    /// A number that has no case here: the archive is newer than this crate.
    Other(u32),
}

impl Refusal {
    /// The number that the library answers.
    ///
    /// ```
    /// assert_eq!(pursegable::Refusal::NoSteps.number(), 7);
    /// ```
    #[must_use]
    pub const fn number(self) -> u32 {
        match self {
            Refusal::BadSize => 1,
            Refusal::BadKind => 2,
            Refusal::BadChild => 3,
            Refusal::BadRange => 4,
            Refusal::BadText => 5,
            Refusal::FailMet => 6,
            Refusal::NoSteps => 7,
            Refusal::NoOutput => 8,
            Refusal::NoEvents => 9,
            Refusal::NoNodes => 10,
            Refusal::BadOperand => 11,
            Refusal::NoText => 12,
            Refusal::NoVisit => 13,
            Refusal::Other(number) => number,
        }
    }

    /// The refusal with this number; 0 is none.
    ///
    /// ```
    /// use pursegable::Refusal;
    ///
    /// assert_eq!(Refusal::from_number(7), Some(Refusal::NoSteps));
    /// assert_eq!(Refusal::from_number(0), None);
    /// ```
    #[must_use]
    pub const fn from_number(number: u32) -> Option<Refusal> {
        Some(match number {
            0 => return None,
            1 => Refusal::BadSize,
            2 => Refusal::BadKind,
            3 => Refusal::BadChild,
            4 => Refusal::BadRange,
            5 => Refusal::BadText,
            6 => Refusal::FailMet,
            7 => Refusal::NoSteps,
            8 => Refusal::NoOutput,
            9 => Refusal::NoEvents,
            10 => Refusal::NoNodes,
            11 => Refusal::BadOperand,
            12 => Refusal::NoText,
            13 => Refusal::NoVisit,
            other => Refusal::Other(other),
        })
    }

    /// Whether a layout that is refused so reports a node.
    const fn has_place(self) -> bool {
        matches!(self.number(), 2..=5 | 7 | 9)
    }

    fn said(self) -> &'static str {
        match self {
            Refusal::BadSize => "a size, the width or the step limit is out of range",
            Refusal::BadKind => "a kind is unknown, or an unused word is not 0",
            Refusal::BadChild => "a child is not below its parent, or an amount is out of range",
            Refusal::BadRange => "a text's range leaves the text bytes",
            Refusal::BadText => "a text is not well-formed UTF-8, has a line feed in it, or its columns are wrong",
            Refusal::FailMet => "a Fail was met outside every trial",
            Refusal::NoSteps => "a node is due and the steps are used up",
            Refusal::NoOutput => "the bytes don't fit the output",
            Refusal::NoEvents => "an event doesn't fit",
            Refusal::NoNodes => "the nodes don't fit the table",
            Refusal::BadOperand => "an operand is no present node",
            Refusal::NoText => "the bytes don't fit the text",
            Refusal::NoVisit => "the step is no visit of a group met broken in layout",
            Refusal::Other(_) => "no answer of this version",
        }
    }
}

impl fmt::Display for Refusal {
    fn fmt(&self, f: &mut fmt::Formatter<'_>) -> fmt::Result {
        write!(f, "{} ({})", self.said(), self.number())
    }
}

impl Error for Refusal {}

/// A layout that was refused: why, where and after how many steps. The output and the events are zero.
///
/// ```
/// use pursegable::{Draft, Refusal, Strip};
///
/// let draft = Draft::new();
/// let note = draft.text("Dis")?;
/// let refused = Strip::new().layout(&draft, note, 42, 0).unwrap_err();
/// assert_eq!((refused.why, refused.place, refused.steps), (Refusal::NoSteps, Some(note), 0));
/// assert_eq!(refused.to_string(), "a node is due and the steps are used up (7), at node 0");
///
/// let fail = draft.fail()?;
/// let refused = Strip::new().sheet(&draft, fail).unwrap_err();
/// assert_eq!((refused.why, refused.place, refused.steps), (Refusal::FailMet, None, 1));
/// # Ok::<(), pursegable::Refused>(())
/// ```
#[must_use]
#[non_exhaustive]
#[derive(Clone, Copy, Debug, PartialEq, Eq, Hash)]
pub struct Refused {
    /// Why.
    pub why: Refusal,
    /// The node at fault from [`Refusal::BadKind`] to [`Refusal::BadText`], the node due at [`Refusal::NoSteps`], the annotation that has
    /// no room at [`Refusal::NoEvents`]. Others have none, nor has a constructor's refusal.
    pub place: Option<Node>,
    /// The steps until then, from [`Refusal::FailMet`] to [`Refusal::NoEvents`]; else 0.
    pub steps: u32,
}

impl From<Refusal> for Refused {
    /// A constructor's refusal has neither place nor steps.
    fn from(why: Refusal) -> Refused {
        Refused { why, place: None, steps: 0 }
    }
}

impl fmt::Display for Refused {
    fn fmt(&self, f: &mut fmt::Formatter<'_>) -> fmt::Result {
        match self.place {
            Some(node) => write!(f, "{}, at {node}", self.why),
            None => self.why.fmt(f),
        }
    }
}

impl Error for Refused {
    fn source(&self) -> Option<&(dyn Error + 'static)> {
        Some(&self.why)
    }
}

/// A document that was laid out: the bytes and events in use, and the steps taken.
///
/// ```
/// use pursegable::{Draft, Strip};
///
/// # fn main() -> Result<(), pursegable::Refused> {
/// let draft = Draft::new();
/// let note = draft.text("Dis")?;
/// let mut strip = Strip::new();
/// let laid = strip.sheet(&draft, note)?;
/// assert_eq!((laid.bytes, laid.records.len(), laid.steps), (&b"Dis"[..], 0, 1));
/// # Ok(())
/// # }
/// ```
#[must_use]
#[non_exhaustive]
#[derive(Clone, Copy, Debug, PartialEq, Eq)]
pub struct Laid<'a> {
    /// The place: none, for no node is at fault.
    pub place: Option<Node>,
    /// The steps taken, those of fit tests too.
    pub steps: u32,
    /// The bytes in use. What was lent past them is zero.
    pub bytes: &'a [u8],
    /// The event records in use. What was lent past them is zero.
    pub records: &'a [Event],
}

impl<'a> Laid<'a> {
    /// The output as text.
    ///
    /// # Panics
    ///
    /// Never: every Text was found well-formed, and a Hardline writes a line feed and blanks.
    ///
    /// ```
    /// # use pursegable::{Draft, Strip};
    /// # fn main() -> Result<(), pursegable::Refused> {
    /// let draft = Draft::new();
    /// let rows = draft.intersperse(["Dis", "E"], draft.hardline())?;
    /// assert_eq!(Strip::new().sheet(&draft, rows)?.text(), "Dis\nE");
    /// # Ok(())
    /// # }
    /// ```
    #[must_use]
    pub fn text(&self) -> &'a str {
        core::str::from_utf8(self.bytes).expect("what is laid out is well-formed")
    }

    /// The events in their order.
    ///
    /// ```
    /// # use pursegable::{Draft, Mark, Strip};
    /// # fn main() -> Result<(), pursegable::Refused> {
    /// let draft = Draft::new();
    /// let note = draft.annotate("Dis", 7)?;
    /// let mut strip = Strip::new();
    /// let laid = strip.sheet(&draft, note)?;
    /// assert_eq!(laid.events().filter(|event| event.mark() == Mark::Open).count(), 1);
    /// # Ok(())
    /// # }
    /// ```
    #[must_use]
    pub fn events(&self) -> Events<'a> {
        Events::of(self.records)
    }

    /// The output cut at its events.
    ///
    /// # Panics
    ///
    /// Never, as [`text`](Laid::text).
    ///
    /// ```
    /// # use pursegable::{Draft, Piece, Strip};
    /// # fn main() -> Result<(), pursegable::Refused> {
    /// let draft = Draft::new();
    /// let note = draft.annotate("Dis", 7)?;
    /// let mut printed = String::new();
    /// for piece in Strip::new().sheet(&draft, note)?.pieces() {
    ///     match piece {
    ///         Piece::Text(text) => printed.push_str(text),
    ///         Piece::Open(label) => printed.push_str(&format!("<{label}>")),
    ///         Piece::Close(label) => printed.push_str(&format!("</{label}>")),
    ///     }
    /// }
    /// assert_eq!(printed, "<7>Dis</7>");
    /// # Ok(())
    /// # }
    /// ```
    #[must_use]
    pub fn pieces(&self) -> Pieces<'a> {
        Pieces::of(self.text(), self.records)
    }
}

/// A report's words, taken apart: the one place that knows their order.
pub(crate) fn reported<'a>(report: [u32; REPORT_WORDS], out: &'a [u8], events: &'a [Event]) -> Result<Laid<'a>, Refused> {
    let [answer, place, steps, bytes, records] = report;
    match Refusal::from_number(answer) {
        Some(why) => Err(Refused { why, place: why.has_place().then(|| Node::from_number(place)), steps }),
        None => Ok(Laid { place: None, steps, bytes: &out[..bytes as usize], records: &events[..records as usize] }),
    }
}
