//! Why a group went onto several lines, or stayed on one.

use crate::sizes::REPORT_WORDS;
use crate::{Node, Refusal, raw};

/// The first node that a group's fit test meets that breaks it or ends it flat.
///
/// The column is that reached at the node, for a text at its end.
#[derive(Clone, Copy, Debug, PartialEq, Eq, Hash)]
pub enum Reason {
    /// Broken: a Fail.
    AtFail(Node, u32),
    /// Broken: a Hardline inside the group.
    HardlineInside(Node, u32),
    /// Broken: a text that ends past the width, at this column.
    TextPast(Node, u32),
    /// Flat: nothing was left.
    NothingLeft,
    /// Flat: a Hardline after the group.
    HardlineAfter(Node),
}

impl Reason {
    /// Whether the group goes flat.
    #[must_use]
    pub const fn is_flat(self) -> bool {
        matches!(self, Reason::NothingLeft | Reason::HardlineAfter(_))
    }

    /// A report's words, taken apart: the one place that knows their order.
    fn told([_, _, reason, node, column]: [u32; REPORT_WORDS]) -> Reason {
        let node = Node::from_number(node);
        match reason {
            1 => Reason::AtFail(node, column),
            2 => Reason::HardlineInside(node, column),
            3 => Reason::TextPast(node, column),
            4 => Reason::NothingLeft,
            _ => Reason::HardlineAfter(node),
        }
    }
}

/// Why the group that is visited at a step of a layout goes flat or broken.
///
/// It takes what [`layout`](fn@crate::layout) takes, with the events as words, and a step number, which names a visit of the run: 1 is
/// the root's. The limit counts only up to the visit. `out`, `events` and `work` are zero afterwards.
///
/// # Errors
///
/// Answers 1 to 5, those of a run that ends before the visit, and [`Refusal::NoVisit`].
///
/// ```
/// use pursegable::{Node, Reason, Refusal, sizes::WORK_WORDS, why};
///
/// let (mut out, mut events, mut work) = ([0; 64], [0; 12], [0; WORK_WORDS]);
/// let table = [6, 0, 3, 3, 2, 0, 0, 0]; // a Text of 3 columns in a Group
/// let mut ask = |width, step| why(&table, b"Dis", width, 1, step, &mut out, &mut events, &mut work);
/// assert_eq!(ask(2, 1), Ok(Reason::TextPast(Node::from_number(0), 3)));
/// assert_eq!(ask(3, 1), Ok(Reason::NothingLeft));
/// assert_eq!(ask(3, 2), Err(Refusal::NoSteps)); // the run ends before that step
/// assert_eq!(ask(3, 0), Err(Refusal::NoVisit));
/// ```
#[allow(clippy::too_many_arguments)] // as many as the export has
pub fn why(
    table: &[u32],
    text: &[u8],
    width: u32,
    limit: u32,
    step: u32,
    out: &mut [u8],
    events: &mut [u32],
    work: &mut [u32],
) -> Result<Reason, Refusal> {
    let mut report = [0; REPORT_WORDS];
    match Refusal::from_number(raw::why(table, text, width, limit, step, out, events, work, &mut report)) {
        Some(refusal) => Err(refusal),
        None => Ok(Reason::told(report)),
    }
}
