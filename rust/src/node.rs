//! A node, and what stands for one in a constructor's call.

use crate::{Draft, Refusal};
use core::fmt;

/// A node of a draft, by its number.
///
/// It is a number and nothing else: of another draft it names the node with the same number there, if there is one.
///
/// ```
/// let draft = pursegable::Draft::new();
/// let note = draft.text("Dis")?;
/// assert_eq!(note.number(), 0);
/// assert_eq!(note.to_string(), "node 0");
/// # Ok::<(), pursegable::Refused>(())
/// ```
#[derive(Clone, Copy, Debug, PartialEq, Eq, PartialOrd, Ord, Hash)]
pub struct Node(u32);

impl Node {
    /// Its number: its place in the table, counted from 0 in nodes.
    ///
    /// ```
    /// assert_eq!(pursegable::Node::from_number(4).number(), 4);
    /// ```
    #[must_use]
    pub const fn number(self) -> u32 {
        self.0
    }

    /// The node with this number, for those whose table was not built by a draft. That it is there is tested where it is used.
    ///
    /// ```
    /// use pursegable::{Draft, Node, Refusal};
    ///
    /// assert_eq!(Draft::new().group(Node::from_number(4)), Err(Refusal::BadOperand));
    /// ```
    #[must_use]
    pub const fn from_number(number: u32) -> Node {
        Node(number)
    }
}

impl fmt::Display for Node {
    fn fmt(&self, f: &mut fmt::Formatter<'_>) -> fmt::Result {
        write!(f, "node {}", self.0)
    }
}

mod sealed {
    pub trait Sealed {}
    impl Sealed for super::Node {}
    impl Sealed for Result<super::Node, super::Refusal> {}
    impl Sealed for &str {}
}

/// What a constructor takes for a node: a [`Node`]; what another constructor gave, so that calls nest; a string, for a Text.
///
/// A refusal among the operands is handed on; what was made before it stays. A string's Text is made by the call that takes it, so after
/// the nodes of operands that are calls themselves.
///
/// ```
/// use pursegable::{Draft, Refusal};
///
/// let draft = Draft::new();
/// let note = draft.text("Dis")?;
/// let row = draft.enclose(draft.group(note), "! ", draft.line())?;
/// assert_eq!(draft.lay(row, 42)?, "! Dis\n");
/// assert_eq!(draft.group(Err(Refusal::NoText)), Err(Refusal::NoText));
/// # Ok::<(), pursegable::Refused>(())
/// ```
pub trait Operand: sealed::Sealed {
    /// The node, made if it has to be.
    ///
    /// # Errors
    ///
    /// What it is refused with.
    ///
    /// ```
    /// use pursegable::{Draft, Operand};
    ///
    /// let draft = Draft::new();
    /// assert_eq!("Dis".node(&draft)?.number(), 0);
    /// # Ok::<(), pursegable::Refused>(())
    /// ```
    fn node(self, draft: &Draft<'_>) -> Result<Node, Refusal>;
}

impl Operand for Node {
    fn node(self, _: &Draft<'_>) -> Result<Node, Refusal> {
        Ok(self)
    }
}

impl Operand for Result<Node, Refusal> {
    fn node(self, _: &Draft<'_>) -> Result<Node, Refusal> {
        self
    }
}

impl Operand for &str {
    fn node(self, draft: &Draft<'_>) -> Result<Node, Refusal> {
        draft.text(self)
    }
}
