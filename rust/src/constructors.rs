//! A draft's constructors: a method for each. What they share comes first.

use crate::block::Block;
use crate::sizes::MOST_NODES;
use crate::{Draft, Node, Operand, Refusal, raw};

/// An amount and its way, of one number: 0 adds, 1 subtracts.
pub(crate) fn way(amount: i32) -> (u32, u32) {
    (amount.unsigned_abs(), u32::from(amount < 0))
}

/// What `pursegable_make` makes, by its numbers.
mod what {
    pub const NIL: u32 = 0;
    pub const APPEND: u32 = 1;
    pub const GROUP: u32 = 2;
    pub const FLAT_ALT: u32 = 3;
    pub const NEST: u32 = 4;
    pub const HARDLINE: u32 = 5;
    pub const ANNOTATE: u32 = 7;
    pub const UNION: u32 = 8;
    pub const ALIGN: u32 = 9;
    pub const FAIL: u32 = 10;
    pub const SPACE: u32 = 11;
    pub const LINE: u32 = 12;
    pub const LINE_: u32 = 13;
    pub const SOFTLINE: u32 = 14;
    pub const SOFTLINE_: u32 = 15;
    pub const HANG: u32 = 16;
    pub const INDENT: u32 = 17;
    pub const ENCLOSE: u32 = 18;
}

impl Draft<'_> {
    fn make(&self, what: u32, [a, b, c]: [u32; 3]) -> Result<Node, Refusal> {
        self.made(|table, text, counts| raw::make(what, a, b, c, table, text, counts))
    }

    fn make_of(&self, what: u32, child: impl Operand, b: u32, c: u32) -> Result<Node, Refusal> {
        let a = child.node(self)?.number();
        self.make(what, [a, b, c])
    }

    fn make_of_two(&self, what: u32, first: impl Operand, second: impl Operand) -> Result<Node, Refusal> {
        let a = first.node(self)?.number();
        let b = second.node(self)?.number();
        self.make(what, [a, b, 0])
    }

    /// The operands joined by an export that takes a list of nodes. Of more than a table has nodes, those before are joined first.
    fn joined<I>(&self, operands: I, join: impl Fn(&[u32], &mut [u32], &[u8], &mut [u32]) -> u32) -> Result<Node, Refusal>
    where
        I: IntoIterator<Item: Operand>,
    {
        let mut nodes = [0; MOST_NODES];
        let mut held = 0;
        for operand in operands {
            let node = operand.node(self)?;
            if held == nodes.len() {
                nodes[0] = self.made(|table, text, counts| join(&nodes, table, text, counts))?.number();
                held = 1;
            }
            nodes[held] = node.number();
            held += 1;
        }
        self.made(|table, text, counts| join(&nodes[..held], table, text, counts))
    }
}

/// The constructors. The numbers under "Errors" are [`Refusal::number`]'s, in the order in which they are tested.
impl<'a> Draft<'a> {
    /// Nothing.
    ///
    /// # Errors
    ///
    /// 10 if there is no room for a node.
    ///
    /// ```
    /// # let draft = pursegable::Draft::new();
    /// let nil = draft.nil()?;
    /// assert_eq!(draft.lay(nil, 42)?, "");
    /// # Ok::<(), pursegable::Refused>(())
    /// ```
    pub fn nil(&self) -> Result<Node, Refusal> {
        self.make(what::NIL, [0; 3])
    }

    /// A Text, a column to a character; of no characters a Nil. A character that is wider or narrower than a column needs
    /// [`text_columns`](Draft::text_columns). A line feed in it is refused: a Hardline ends a line.
    ///
    /// # Errors
    ///
    /// 12, then 10, if there is no room for its bytes or a node.
    ///
    /// ```
    /// # let draft = pursegable::Draft::new();
    /// let note = draft.text("Dis")?;
    /// assert_eq!(draft.lay(note, 42)?, "Dis");
    /// # Ok::<(), pursegable::Refused>(())
    /// ```
    pub fn text(&self, text: &str) -> Result<Node, Refusal> {
        let columns = u32::try_from(text.chars().count()).unwrap_or(u32::MAX);
        self.text_columns(text, columns)
    }

    /// A Text so many columns wide: as many as its bytes if it is ASCII, else any number up to them.
    ///
    /// # Errors
    ///
    /// 5 if the columns are wrong; 12, then 10, if there is no room.
    ///
    /// ```
    /// # let draft = pursegable::Draft::new();
    /// let wide = draft.text_columns("風", 2)?;
    /// let row = draft.group(draft.concat([Ok(wide), draft.line(), draft.text("x")]))?;
    /// assert_eq!(draft.lay(row, 3)?, "風\nx");
    /// assert_eq!(draft.text_columns("Dis", 4), Err(pursegable::Refusal::BadText));
    /// # Ok::<(), pursegable::Refused>(())
    /// ```
    pub fn text_columns(&self, text: &str, columns: u32) -> Result<Node, Refusal> {
        self.text_bytes(text.as_bytes(), columns)
    }

    /// A Text of bytes that may not be UTF-8.
    ///
    /// # Errors
    ///
    /// 5 if they are not well-formed, or the columns wrong; 12, then 10, if there is no room.
    ///
    /// ```
    /// # let draft = pursegable::Draft::new();
    /// assert!(draft.text_bytes(b"Dis", 3).is_ok());
    /// assert_eq!(draft.text_bytes(b"\xff", 1), Err(pursegable::Refusal::BadText));
    /// # Ok::<(), pursegable::Refused>(())
    /// ```
    pub fn text_bytes(&self, bytes: &[u8], columns: u32) -> Result<Node, Refusal> {
        self.made(|table, held, counts| raw::text(bytes, columns, table, held, counts))
    }

    /// One after the other. A Nil gives the other one.
    ///
    /// # Errors
    ///
    /// 11 if an operand is no node here; 10.
    ///
    /// ```
    /// # let draft = pursegable::Draft::new();
    /// let row = draft.append("! ", "Dis")?;
    /// assert_eq!(draft.lay(row, 42)?, "! Dis");
    /// # Ok::<(), pursegable::Refused>(())
    /// ```
    pub fn append(&self, first: impl Operand, second: impl Operand) -> Result<Node, Refusal> {
        self.make_of_two(what::APPEND, first, second)
    }

    /// All of them, one after the other; of none a Nil.
    ///
    /// Up to 1,024 are joined as a whole or not at all; of more, those before a refusal stay joined.
    ///
    /// # Errors
    ///
    /// 11 if an operand is no node here; 10.
    ///
    /// ```
    /// # let draft = pursegable::Draft::new();
    /// let notes = ["Dis", "Fis"].map(|note| draft.append(note, draft.hardline()));
    /// let rows = draft.concat(notes)?;
    /// assert_eq!(draft.lay(rows, 42)?, "Dis\nFis\n");
    /// # Ok::<(), pursegable::Refused>(())
    /// ```
    pub fn concat<I>(&self, nodes: I) -> Result<Node, Refusal>
    where
        I: IntoIterator<Item: Operand>,
    {
        self.joined(nodes, raw::concat)
    }

    /// All of them with the separator between each two; of none a Nil. As a whole or not at all as [`concat`](Draft::concat).
    ///
    /// # Errors
    ///
    /// 11 if an operand is no node here, the separator too; 10.
    ///
    /// ```
    /// # let draft = pursegable::Draft::new();
    /// let notes = draft.intersperse(["Dis", "Fis", "B"], ", ")?;
    /// assert_eq!(draft.lay(notes, 42)?, "Dis, Fis, B");
    /// # Ok::<(), pursegable::Refused>(())
    /// ```
    pub fn intersperse<I>(&self, nodes: I, separator: impl Operand) -> Result<Node, Refusal>
    where
        I: IntoIterator<Item: Operand>,
    {
        let separator = separator.node(self)?.number();
        self.joined(nodes, |nodes, table, text, counts| raw::intersperse(nodes, separator, table, text, counts))
    }

    /// The first where the group around it is broken, the second where it is flat.
    ///
    /// # Errors
    ///
    /// 11 if an operand is no node here; 10.
    ///
    /// ```
    /// # let draft = pursegable::Draft::new();
    /// let comma = draft.flat_alt(draft.append(draft.hardline(), ", "), ", ")?;
    /// let notes = draft.group(draft.intersperse(["Dis", "Fis"], comma))?;
    /// assert_eq!(draft.lay(notes, 8)?, "Dis, Fis");
    /// assert_eq!(draft.lay(notes, 7)?, "Dis\n, Fis");
    /// # Ok::<(), pursegable::Refused>(())
    /// ```
    pub fn flat_alt(&self, broken: impl Operand, flat: impl Operand) -> Result<Node, Refusal> {
        self.make_of_two(what::FLAT_ALT, broken, flat)
    }

    /// Flat if it fits on the rest of the line with what follows it up to the next line end, else broken. A Group, a Nil and an
    /// ASCII Text are given back.
    ///
    /// # Errors
    ///
    /// 11 if the operand is no node here; 10.
    ///
    /// ```
    /// # let draft = pursegable::Draft::new();
    /// let row = draft.group(draft.concat([draft.text("Dis"), draft.line(), draft.text("new")]))?;
    /// assert_eq!(draft.lay(row, 7)?, "Dis new");
    /// assert_eq!(draft.lay(row, 6)?, "Dis\nnew");
    /// # Ok::<(), pursegable::Refused>(())
    /// ```
    pub fn group(&self, node: impl Operand) -> Result<Node, Refusal> {
        self.make_of(what::GROUP, node, 0, 0)
    }

    /// Its lines after the first indented by the amount more; by a negative one less, stopping at 0.
    ///
    /// # Errors
    ///
    /// 11 if the operand is no node here; 3 if the amount is above 1,000 either way; 10.
    ///
    /// ```
    /// # let draft = pursegable::Draft::new();
    /// let row = draft.nest(draft.concat([draft.text("Dis"), draft.line(), draft.text("new")]), 4)?;
    /// assert_eq!(draft.lay(row, 42)?, "Dis\n    new");
    /// # Ok::<(), pursegable::Refused>(())
    /// ```
    pub fn nest(&self, node: impl Operand, amount: i32) -> Result<Node, Refusal> {
        let (amount, way) = way(amount);
        self.make_of(what::NEST, node, amount, way)
    }

    /// An annotation around it: events open and close it, with the label.
    ///
    /// # Errors
    ///
    /// 11 if the operand is no node here; 10.
    ///
    /// ```
    /// # let draft = pursegable::Draft::new();
    /// let row = draft.annotate("Dis", 7)?;
    /// let mut strip = pursegable::Strip::new();
    /// assert_eq!(strip.sheet(&draft, row)?.events().len(), 2);
    /// # Ok::<(), pursegable::Refused>(())
    /// ```
    pub fn annotate(&self, node: impl Operand, label: u32) -> Result<Node, Refusal> {
        self.make_of(what::ANNOTATE, node, label, 0)
    }

    /// The first as a trial; the second in its place if the first has a Text that ends past width, or meets a Fail.
    ///
    /// # Errors
    ///
    /// 11 if an operand is no node here; 10.
    ///
    /// ```
    /// # let draft = pursegable::Draft::new();
    /// let row = draft.union("spring replaced", "replaced")?;
    /// assert_eq!(draft.lay(row, 15)?, "spring replaced");
    /// assert_eq!(draft.lay(row, 14)?, "replaced");
    /// # Ok::<(), pursegable::Refused>(())
    /// ```
    pub fn union(&self, first: impl Operand, second: impl Operand) -> Result<Node, Refusal> {
        self.make_of_two(what::UNION, first, second)
    }

    /// Its lines after the first indented to the column where it starts.
    ///
    /// # Errors
    ///
    /// 11 if the operand is no node here; 10.
    ///
    /// ```
    /// # let draft = pursegable::Draft::new();
    /// let row = draft.append("Dis ", draft.align(draft.concat([draft.text("spring"), draft.line(), draft.text("new")])))?;
    /// assert_eq!(draft.lay(row, 42)?, "Dis spring\n    new");
    /// # Ok::<(), pursegable::Refused>(())
    /// ```
    pub fn align(&self, node: impl Operand) -> Result<Node, Refusal> {
        self.make_of(what::ALIGN, node, 0, 0)
    }

    /// Aligned, with the amount more: [`nest`](Draft::nest), then [`align`](Draft::align).
    ///
    /// # Errors
    ///
    /// 11 if the operand is no node here; 3 if the amount is above 1,000 either way; 10.
    ///
    /// ```
    /// # let draft = pursegable::Draft::new();
    /// let row = draft.append("Dis ", draft.hang(draft.concat([draft.text("spring"), draft.line(), draft.text("new")]), 2))?;
    /// assert_eq!(draft.lay(row, 42)?, "Dis spring\n      new");
    /// # Ok::<(), pursegable::Refused>(())
    /// ```
    pub fn hang(&self, node: impl Operand, amount: i32) -> Result<Node, Refusal> {
        let (amount, way) = way(amount);
        self.make_of(what::HANG, node, amount, way)
    }

    /// So many blanks before it, and hung by them.
    ///
    /// # Errors
    ///
    /// 11 if the operand is no node here; 3 if the amount is above 1,000; 12; 10.
    ///
    /// ```
    /// # let draft = pursegable::Draft::new();
    /// let row = draft.append("Dis", draft.indent(draft.concat([draft.text("spring"), draft.line(), draft.text("new")]), 2))?;
    /// assert_eq!(draft.lay(row, 42)?, "Dis  spring\n     new");
    /// # Ok::<(), pursegable::Refused>(())
    /// ```
    pub fn indent(&self, node: impl Operand, amount: u32) -> Result<Node, Refusal> {
        self.make_of(what::INDENT, node, amount, 0)
    }

    /// It with one node before it and one after it.
    ///
    /// # Errors
    ///
    /// 11 if an operand is no node here; 10.
    ///
    /// ```
    /// # let draft = pursegable::Draft::new();
    /// let row = draft.enclose("Dis", "(", ")")?;
    /// assert_eq!(draft.lay(row, 42)?, "(Dis)");
    /// # Ok::<(), pursegable::Refused>(())
    /// ```
    pub fn enclose(&self, node: impl Operand, before: impl Operand, after: impl Operand) -> Result<Node, Refusal> {
        let child = node.node(self)?.number();
        let before = before.node(self)?.number();
        let after = after.node(self)?.number();
        self.make(what::ENCLOSE, [child, before, after])
    }

    /// A line end, broken or flat, and the indentation of what follows.
    ///
    /// # Errors
    ///
    /// 10 if there is no room for a node.
    ///
    /// ```
    /// # let draft = pursegable::Draft::new();
    /// let row = draft.append(draft.hardline(), "Dis")?;
    /// assert_eq!(draft.lay(row, 42)?, "\nDis");
    /// # Ok::<(), pursegable::Refused>(())
    /// ```
    pub fn hardline(&self) -> Result<Node, Refusal> {
        self.make(what::HARDLINE, [0; 3])
    }

    /// A line end, or a blank where the group around it is flat.
    ///
    /// # Errors
    ///
    /// 12, then 10, if there is no room for a byte and three nodes.
    ///
    /// ```
    /// # let draft = pursegable::Draft::new();
    /// let row = draft.group(draft.concat([draft.text("Dis"), draft.line(), draft.text("new")]))?;
    /// assert_eq!(draft.lay(row, 42)?, "Dis new");
    /// # Ok::<(), pursegable::Refused>(())
    /// ```
    pub fn line(&self) -> Result<Node, Refusal> {
        self.make(what::LINE, [0; 3])
    }

    /// A line end, or nothing where the group around it is flat.
    ///
    /// # Errors
    ///
    /// 10 if there is no room for three nodes.
    ///
    /// ```
    /// # let draft = pursegable::Draft::new();
    /// let row = draft.group(draft.concat([draft.text("Dis"), draft.line_(), draft.text("new")]))?;
    /// assert_eq!(draft.lay(row, 42)?, "Disnew");
    /// # Ok::<(), pursegable::Refused>(())
    /// ```
    pub fn line_(&self) -> Result<Node, Refusal> {
        self.make(what::LINE_, [0; 3])
    }

    /// A line in a group of its own: a blank if what follows it up to the next line end fits.
    ///
    /// # Errors
    ///
    /// 12, then 10, if there is no room for a byte and four nodes.
    ///
    /// ```
    /// # let draft = pursegable::Draft::new();
    /// let row = draft.intersperse(["Dis", "spring", "new"], draft.softline())?;
    /// assert_eq!(draft.lay(row, 10)?, "Dis spring\nnew");
    /// # Ok::<(), pursegable::Refused>(())
    /// ```
    pub fn softline(&self) -> Result<Node, Refusal> {
        self.make(what::SOFTLINE, [0; 3])
    }

    /// A [`line_`](Draft::line_) in a group of its own.
    ///
    /// # Errors
    ///
    /// 10 if there is no room for four nodes.
    ///
    /// ```
    /// # let draft = pursegable::Draft::new();
    /// let row = draft.intersperse(["Dis,", "Fis,", "B"], draft.softline_())?;
    /// assert_eq!(draft.lay(row, 8)?, "Dis,Fis,\nB");
    /// # Ok::<(), pursegable::Refused>(())
    /// ```
    pub fn softline_(&self) -> Result<Node, Refusal> {
        self.make(what::SOFTLINE_, [0; 3])
    }

    /// A Text of one blank.
    ///
    /// # Errors
    ///
    /// 12, then 10, if there is no room.
    ///
    /// ```
    /// # let draft = pursegable::Draft::new();
    /// let row = draft.concat([draft.text("Dis"), draft.space(), draft.text("new")])?;
    /// assert_eq!(draft.lay(row, 42)?, "Dis new");
    /// # Ok::<(), pursegable::Refused>(())
    /// ```
    pub fn space(&self) -> Result<Node, Refusal> {
        self.make(what::SPACE, [0; 3])
    }

    /// Gives the trial around it up; outside every trial the layout is refused with [`Refusal::FailMet`].
    ///
    /// # Errors
    ///
    /// 10 if there is no room for a node.
    ///
    /// ```
    /// # let draft = pursegable::Draft::new();
    /// let row = draft.union(draft.append("Dis", draft.fail()), "Es")?;
    /// assert_eq!(draft.lay(row, 42)?, "Es");
    /// # Ok::<(), pursegable::Refused>(())
    /// ```
    pub fn fail(&self) -> Result<Node, Refusal> {
        self.make(what::FAIL, [0; 3])
    }

    /// Starts the block layouts of a body; [`Block`] takes the affixes.
    ///
    /// ```
    /// let draft = pursegable::Draft::new();
    /// let block = draft.block("Dis").affix("(", ")").format(2)?;
    /// assert_eq!(draft.lay(block, 42)?, "(Dis)");
    /// # Ok::<(), pursegable::Refused>(())
    /// ```
    pub fn block(&self, body: impl Operand) -> Block<'_, 'a> {
        Block::new(self, body.node(self))
    }
}
