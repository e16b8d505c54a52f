//! The block layouts, with a builder for the affixes.

use crate::constructors::way;
use crate::sizes::MOST_AFFIXES;
use crate::{Draft, Node, Operand, Refusal, raw};
use core::fmt;

/// One more than a block may have, so that the library sees and refuses it.
const ROOM: usize = MOST_AFFIXES + 1;

/// A block on its way: a body between affixes, from [`Draft::block`].
///
/// Its layouts have all prefixes on the first line, else fewer of them, and at last only the first; an affix below the first line is
/// nested if it is flagged, the body always. Suffixes are printed in the order they were given, not from the inside out: those
/// of the affixes below the first line, then those of the affixes on it.
///
/// ```
/// use pursegable::Draft;
///
/// # fn main() -> Result<(), pursegable::Refused> {
/// let draft = Draft::new();
/// let row = draft.block(draft.append(draft.line_(), "Dis"))
///     .affix("row", draft.nil())
///     .nested(draft.append(draft.line(), "("), draft.append(draft.line_(), ")"))
///     .format(4)?;
/// assert_eq!(draft.lay(row, 9)?, "row (Dis)");
/// assert_eq!(draft.lay(row, 8)?, "row (\n    Dis\n)");
/// assert_eq!(draft.lay(row, 4)?, "row\n    (\n        Dis\n    )");
/// # Ok(())
/// # }
/// ```
#[must_use = "a block is built by `format`"]
pub struct Block<'d, 'a> {
    draft: &'d Draft<'a>,
    /// the body, or the first refusal of an operand
    body: Result<Node, Refusal>,
    prefixes: [u32; ROOM],
    suffixes: [u32; ROOM],
    nests: [u8; ROOM],
    affixes: usize,
}

impl<'d, 'a> Block<'d, 'a> {
    pub(crate) fn new(draft: &'d Draft<'a>, body: Result<Node, Refusal>) -> Self {
        Block { draft, body, prefixes: [0; ROOM], suffixes: [0; ROOM], nests: [0; ROOM], affixes: 0 }
    }

    /// Adds an affix that is not nested below the first line.
    ///
    /// ```
    /// let draft = pursegable::Draft::new();
    /// let block = draft.block("Dis").affix("<", ">").format(2)?;
    /// assert_eq!(draft.lay(block, 42)?, "<Dis>");
    /// # Ok::<(), pursegable::Refused>(())
    /// ```
    pub fn affix(self, prefix: impl Operand, suffix: impl Operand) -> Self {
        self.with(prefix, suffix, false)
    }

    /// Adds an affix that is nested by the amount where its prefix is below the first line.
    ///
    /// ```
    /// let draft = pursegable::Draft::new();
    /// let second = draft.append(draft.hardline(), "(")?;
    /// let block = draft.block("Dis").affix("row", draft.nil()).nested(second, ")").format(2)?;
    /// assert_eq!(draft.lay(block, 42)?, "row\n  (Dis)");
    /// # Ok::<(), pursegable::Refused>(())
    /// ```
    pub fn nested(self, prefix: impl Operand, suffix: impl Operand) -> Self {
        self.with(prefix, suffix, true)
    }

    fn with(mut self, prefix: impl Operand, suffix: impl Operand, nested: bool) -> Self {
        if let Ok(body) = self.body {
            self.body = self.put(prefix, suffix, nested).map(|()| body);
        }
        self
    }

    fn put(&mut self, prefix: impl Operand, suffix: impl Operand, nested: bool) -> Result<(), Refusal> {
        let at = self.affixes.min(MOST_AFFIXES); // past the ninth, the ninth again
        self.prefixes[at] = prefix.node(self.draft)?.number();
        self.suffixes[at] = suffix.node(self.draft)?.number();
        self.nests[at] = u8::from(nested);
        self.affixes = at + 1;
        Ok(())
    }

    /// Builds the block, nested by the amount: added if it is positive, subtracted if it is negative.
    ///
    /// # Errors
    ///
    /// The first refusal of an operand; else 1 for more than 8 affixes, 11, 3 for an amount above 1,000, 10. Then the block has added
    /// nothing.
    ///
    /// ```
    /// let draft = pursegable::Draft::new();
    /// let line = draft.append(draft.hardline(), "Dis")?;
    /// let block = draft.block(line).affix("note", draft.nil()).format(3)?;
    /// assert_eq!(draft.lay(block, 42)?, "note\n   Dis");
    /// # Ok::<(), pursegable::Refused>(())
    /// ```
    pub fn format(self, amount: i32) -> Result<Node, Refusal> {
        let body = self.body?.number();
        let (amount, way) = way(amount);
        let Block { draft, prefixes, suffixes, nests, affixes, .. } = &self;
        let (prefixes, suffixes, nests) = (&prefixes[..*affixes], &suffixes[..*affixes], &nests[..*affixes]);
        draft.made(|table, text, counts| raw::block(body, amount, way, prefixes, suffixes, nests, table, text, counts))
    }
}

impl fmt::Debug for Block<'_, '_> {
    fn fmt(&self, f: &mut fmt::Formatter<'_>) -> fmt::Result {
        f.debug_struct("Block").field("body", &self.body).field("affixes", &self.affixes).finish_non_exhaustive()
    }
}
