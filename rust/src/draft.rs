//! The draft: a table and a text, owned or borrowed, and what is in use of them. Its constructors are in constructors.rs.

use crate::lent::Lent;
use crate::sizes::{COUNTS_WORDS, NODE_WORDS};
use crate::{Node, Refusal};
use core::cell::RefCell;
use core::fmt;

struct Parts<'a> {
    table: Lent<'a, u32>,
    text: Lent<'a, u8>,
    counts: [u32; COUNTS_WORDS],
}

impl Parts<'_> {
    fn upto(&self, node: Node) -> Result<(&[u32], &[u8]), Refusal> {
        let words = NODE_WORDS * (node.number() as usize + 1);
        if self.counts[0] <= node.number() {
            return Err(Refusal::BadOperand);
        }
        let table = self.table.get(..words).ok_or(Refusal::BadSize)?;
        let text = self.text.get(..self.counts[1] as usize).ok_or(Refusal::BadSize)?;
        Ok((table, text))
    }
}

/// A document being built: a table of nodes and the text bytes, owned or borrowed.
///
/// There is a method for each constructor. Each gives the node that it made, which may be an older one, or a refusal, and then it has
/// added nothing. They take `&self`, so that calls nest, and operands by [`Operand`](crate::Operand), so that a chain has one `?`.
/// Nodes may be used any number of times. A draft can be handed to another thread, but not be used by two at once.
///
/// ```
/// use pursegable::Draft;
///
/// # fn main() -> Result<(), pursegable::Refused> {
/// let draft = Draft::new();
/// let notes = draft.intersperse(["Dis", "Fis", "B"], draft.append(",", draft.line()))?;
/// let list = draft.group(draft.enclose(draft.nest(draft.append(draft.line_(), notes), 2), "[", draft.append(draft.line_(), "]")))?;
/// assert_eq!(draft.lay(list, 42)?, "[Dis, Fis, B]");
/// assert_eq!(draft.lay(list, 10)?, "[\n  Dis,\n  Fis,\n  B\n]");
/// # Ok(())
/// # }
/// ```
pub struct Draft<'a> {
    parts: RefCell<Parts<'a>>,
}

#[cfg(feature = "alloc")]
impl Draft<'static> {
    /// A draft that owns all the room there can be: 1,024 nodes and 65,536 bytes of text.
    ///
    /// ```
    /// let draft = pursegable::Draft::new();
    /// assert_eq!((draft.nodes(), draft.bytes()), (0, 0));
    /// ```
    #[must_use]
    pub fn new() -> Self {
        Self::with_room(crate::sizes::MOST_NODES, crate::sizes::MOST_TEXT_BYTES)
    }

    /// A draft that owns room for so many nodes and text bytes.
    ///
    /// ```
    /// use pursegable::{Draft, Refusal};
    ///
    /// let draft = Draft::with_room(1, 0);
    /// assert!(draft.hardline().is_ok());
    /// assert_eq!(draft.hardline(), Err(Refusal::NoNodes));
    /// ```
    #[must_use]
    pub fn with_room(nodes: usize, bytes: usize) -> Self {
        Self::starting(Lent::owned(NODE_WORDS * nodes), Lent::owned(bytes), [0; COUNTS_WORDS])
    }
}

#[cfg(feature = "alloc")]
impl Default for Draft<'static> {
    fn default() -> Self {
        Draft::new()
    }
}

/// The buffers, and what is in use of them.
impl<'a> Draft<'a> {
    /// A draft in a table and a text that are lent; nothing allocates. What they hold doesn't matter.
    ///
    /// ```
    /// let (mut table, mut text) = ([0; 64], [0; 64]);
    /// let draft = pursegable::Draft::lent(&mut table, &mut text);
    /// let note = draft.text("Dis")?;
    /// # let _ = note;
    /// assert_eq!((&table[..4], &text[..3]), (&[6, 0, 3, 3][..], &b"Dis"[..]));
    /// # Ok::<(), pursegable::Refused>(())
    /// ```
    #[must_use]
    pub fn lent(table: &'a mut [u32], text: &'a mut [u8]) -> Self {
        Self::starting(Lent::Borrowed(table), Lent::Borrowed(text), [0; COUNTS_WORDS])
    }

    /// A draft that goes on in a lent table and text with so many nodes and bytes in use. If there are fewer, every constructor is
    /// refused with [`Refusal::BadSize`].
    ///
    /// ```
    /// use pursegable::{Draft, Node};
    ///
    /// let (mut table, mut text) = ([0; 64], [0; 64]);
    /// let draft = Draft::lent(&mut table, &mut text);
    /// draft.text("Dis")?;
    /// let (nodes, bytes) = (draft.nodes(), draft.bytes());
    /// let draft = Draft::resumed(&mut table, &mut text, nodes, bytes);
    /// let row = draft.append("! ", Node::from_number(0))?;
    /// assert_eq!(draft.lay(row, 42)?, "! Dis");
    /// # Ok::<(), pursegable::Refused>(())
    /// ```
    #[must_use]
    pub fn resumed(table: &'a mut [u32], text: &'a mut [u8], nodes: usize, bytes: usize) -> Self {
        let word = |count: usize| u32::try_from(count).unwrap_or(u32::MAX);
        Self::starting(Lent::Borrowed(table), Lent::Borrowed(text), [word(nodes), word(bytes), 0])
    }

    fn starting(table: Lent<'a, u32>, text: Lent<'a, u8>, counts: [u32; COUNTS_WORDS]) -> Self {
        Draft { parts: RefCell::new(Parts { table, text, counts }) }
    }

    /// The nodes in use.
    ///
    /// ```
    /// let draft = pursegable::Draft::new();
    /// draft.line()?; // a Hardline, a Text and their FlatAlt
    /// assert_eq!(draft.nodes(), 3);
    /// # Ok::<(), pursegable::Refused>(())
    /// ```
    #[must_use]
    pub fn nodes(&self) -> usize {
        self.parts.borrow().counts[0] as usize
    }

    /// The text bytes in use.
    ///
    /// ```
    /// let draft = pursegable::Draft::new();
    /// draft.text("Dis")?;
    /// assert_eq!(draft.bytes(), 3);
    /// # Ok::<(), pursegable::Refused>(())
    /// ```
    #[must_use]
    pub fn bytes(&self) -> usize {
        self.parts.borrow().counts[1] as usize
    }

    /// The table up to a node, which is what lays it out, and the text bytes in use.
    ///
    /// # Errors
    ///
    /// [`Refusal::BadOperand`] if there is no such node.
    ///
    /// ```
    /// let mut draft = pursegable::Draft::new();
    /// let note = draft.text("Dis")?;
    /// draft.hardline()?;
    /// assert_eq!(draft.parts(note)?, (&[6, 0, 3, 3][..], &b"Dis"[..]));
    /// # Ok::<(), pursegable::Refused>(())
    /// ```
    pub fn parts(&mut self, node: Node) -> Result<(&[u32], &[u8]), Refusal> {
        self.parts.get_mut().upto(node)
    }

    pub(crate) fn upto<R>(&self, node: Node, look: impl FnOnce(&[u32], &[u8]) -> R) -> Result<R, Refusal> {
        let parts = self.parts.borrow();
        let (table, text) = parts.upto(node)?;
        Ok(look(table, text))
    }

    /// A node laid out at a width, as a string, with [`DEFAULT_STEPS`](crate::sizes::DEFAULT_STEPS).
    ///
    /// Marks leave no trace in it: [`Strip::layout`](crate::Strip::layout) tells them, and keeps its buffers from call to call.
    ///
    /// # Errors
    ///
    /// As [`Strip::layout`](crate::Strip::layout).
    ///
    /// ```
    /// let draft = pursegable::Draft::new();
    /// let row = draft.intersperse(["Fis", "neu", "beledern"], draft.softline())?;
    /// assert_eq!(draft.lay(row, 12)?, "Fis neu\nbeledern");
    /// # Ok::<(), pursegable::Refused>(())
    /// ```
    #[cfg(feature = "alloc")]
    pub fn lay(&self, node: Node, width: u32) -> Result<alloc::string::String, crate::Refused> {
        let mut strip = crate::Strip::new();
        Ok(strip.layout(self, node, width, crate::sizes::DEFAULT_STEPS)?.text().into())
    }

    /// What an answer and the counts say of a constructor's call.
    pub(crate) fn made(
        &self,
        call: impl FnOnce(&mut [u32], &mut [u8], &mut [u32; COUNTS_WORDS]) -> u32,
    ) -> Result<Node, Refusal> {
        let Parts { table, text, counts } = &mut *self.parts.borrow_mut();
        match Refusal::from_number(call(table, text, counts)) {
            Some(refusal) => Err(refusal),
            None => Ok(Node::from_number(counts[2])),
        }
    }
}

impl fmt::Debug for Draft<'_> {
    fn fmt(&self, f: &mut fmt::Formatter<'_>) -> fmt::Result {
        f.debug_struct("Draft").field("nodes", &self.nodes()).field("bytes", &self.bytes()).finish_non_exhaustive()
    }
}
