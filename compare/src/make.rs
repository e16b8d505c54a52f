//! Document 01's constructors and block layouts, over counts of nodes and text bytes in a lent table and text.

use crate::model::{columns_right, kind::*};
use crate::tables::Table;

/// A constructor with its operands, which are node numbers.
#[derive(Clone, Debug, PartialEq, Eq)]
pub enum Make {
    Nil,
    Fail,
    Hardline,
    Space,
    Line,
    LineFlat,
    Softline,
    SoftlineFlat,
    Text(Vec<u8>, u32),
    Append(u32, u32),
    Concat(Vec<u32>),
    Intersperse(Vec<u32>, u32),
    FlatAlt(u32, u32),
    Group(u32),
    Nest(u32, u32, u32),
    Annotate(u32, u32),
    Union(u32, u32),
    Align(u32),
    Hang(u32, u32, u32),
    Indent(u32, u32),
    Enclose(u32, u32, u32),
    Block(Vec<Affix>, u32, u32, u32),
}

#[derive(Clone, Copy, Debug, PartialEq, Eq)]
pub struct Affix {
    pub prefix: u32,
    pub suffix: u32,
    pub nest: bool,
}

/// The used part of a table and its text, and how much of each is lent, in words and bytes.
#[derive(Clone, Debug)]
pub struct Builder {
    pub used: Table,
    pub table_lent: usize,
    pub text_lent: usize,
}

impl Builder {
    pub fn new(table_lent: usize, text_lent: usize) -> Builder {
        Builder { used: Table::default(), table_lent, text_lent }
    }

    /// The new node, or the number that refuses; then nothing has changed.
    pub fn make(&mut self, make: &Make) -> Result<u32, u32> {
        let (words, text) = (self.used.words.len(), self.used.text.len());
        if words > self.table_lent || text > self.text_lent {
            return Err(1);
        }
        let refusal = self.refusal(make);
        if refusal != 0 {
            return Err(refusal);
        }
        // what it adds is added; then there must have been room for it
        let node = self.add(make);
        let added_text = self.used.text.len() > text;
        let added_nodes = self.used.words.len() > words;
        let refusal = if added_text && self.used.text.len() > self.text_lent.min(65_536) {
            12
        } else if added_nodes && self.used.words.len() > self.table_lent.min(4096) {
            10
        } else {
            return Ok(node);
        };
        self.used.words.truncate(words);
        self.used.text.truncate(text);
        Err(refusal)
    }

    /// 1 for too many affixes, then 11, then 3 or 5; 0 for none of them.
    fn refusal(&self, make: &Make) -> u32 {
        let nodes = self.used.nodes() as u32;
        if matches!(make, Make::Block(affixes, ..) if affixes.len() > 8) {
            return 1;
        }
        if operands(make).iter().any(|&operand| operand >= nodes) {
            return 11;
        }
        match make {
            Make::Nest(_, amount, way) | Make::Hang(_, amount, way) | Make::Block(_, _, amount, way)
                if *amount > 1000 || *way > 1 =>
            {
                3
            }
            Make::Indent(_, amount) if *amount > 1000 => 3,
            Make::Text(bytes, columns) if !columns_right(bytes, *columns as usize) => 5,
            _ => 0,
        }
    }

    fn node(&self, n: u32) -> &[u32] {
        &self.used.words[4 * n as usize..4 * n as usize + 4]
    }

    fn is_nil(&self, n: u32) -> bool {
        self.node(n)[0] == NIL
    }

    fn add(&mut self, make: &Make) -> u32 {
        match make {
            Make::Nil => self.used.push(NIL, 0, 0, 0),
            Make::Fail => self.used.push(FAIL, 0, 0, 0),
            Make::Hardline => self.used.push(HARDLINE, 0, 0, 0),
            Make::Space => self.text(b" ", 1),
            Make::Line => {
                let broken = self.used.push(HARDLINE, 0, 0, 0);
                let flat = self.text(b" ", 1);
                self.used.push(FLAT_ALT, broken, flat, 0)
            }
            Make::LineFlat => {
                let broken = self.used.push(HARDLINE, 0, 0, 0);
                let flat = self.used.push(NIL, 0, 0, 0);
                self.used.push(FLAT_ALT, broken, flat, 0)
            }
            Make::Softline => {
                let line = self.add(&Make::Line);
                self.group(line)
            }
            Make::SoftlineFlat => {
                let line = self.add(&Make::LineFlat);
                self.group(line)
            }
            Make::Text(bytes, columns) => self.text(bytes, *columns),
            Make::Append(a, b) => self.append(*a, *b),
            Make::Concat(nodes) => self.join(nodes, None).unwrap_or_else(|| self.used.push(NIL, 0, 0, 0)),
            Make::Intersperse(nodes, separator) => {
                self.join(nodes, Some(*separator)).unwrap_or_else(|| self.used.push(NIL, 0, 0, 0))
            }
            Make::FlatAlt(broken, flat) => self.used.push(FLAT_ALT, *broken, *flat, 0),
            Make::Group(a) => self.group(*a),
            Make::Nest(a, amount, way) => self.nest(*a, *amount, *way),
            Make::Annotate(a, label) => self.used.push(ANNOTATED, *a, *label, 0),
            Make::Union(a, b) => self.used.push(UNION, *a, *b, 0),
            Make::Align(a) => self.used.push(ALIGN, *a, 0, 0),
            Make::Hang(a, amount, way) => self.hang(*a, *amount, *way),
            Make::Indent(a, amount) => {
                let blanks = self.text(&vec![b' '; *amount as usize], *amount);
                let joined = self.append(blanks, *a);
                self.hang(joined, *amount, 0)
            }
            Make::Enclose(a, before, after) => {
                let opened = self.append(*before, *a);
                self.append(opened, *after)
            }
            Make::Block(affixes, body, amount, way) => self.block(affixes, *body, *amount, *way),
        }
    }

    fn text(&mut self, bytes: &[u8], columns: u32) -> u32 {
        if bytes.is_empty() {
            self.used.push(NIL, 0, 0, 0)
        } else {
            self.used.push_text(bytes, columns)
        }
    }

    fn append(&mut self, a: u32, b: u32) -> u32 {
        if self.is_nil(a) {
            b
        } else if self.is_nil(b) {
            a
        } else {
            self.used.push(APPEND, a, b, 0)
        }
    }

    fn join(&mut self, nodes: &[u32], separator: Option<u32>) -> Option<u32> {
        let (&first, others) = nodes.split_first()?;
        let mut joined = first;
        for &other in others {
            if let Some(separator) = separator {
                joined = self.append(joined, separator);
            }
            joined = self.append(joined, other);
        }
        Some(joined)
    }

    fn group(&mut self, a: u32) -> u32 {
        let back = match *self.node(a) {
            [NIL | GROUP, ..] => true,
            [TEXT, start, length, _] => {
                self.used.text.get(start as usize..start as usize + length as usize).is_some_and(<[u8]>::is_ascii)
            }
            _ => false,
        };
        if back {
            a
        } else {
            self.used.push(GROUP, a, 0, 0)
        }
    }

    fn nest(&mut self, a: u32, amount: u32, way: u32) -> u32 {
        if self.is_nil(a) || amount == 0 {
            a
        } else {
            self.used.push(NEST, a, amount, way)
        }
    }

    fn hang(&mut self, a: u32, amount: u32, way: u32) -> u32 {
        let nested = self.nest(a, amount, way);
        self.used.push(ALIGN, nested, 0, 0)
    }

    fn block(&mut self, affixes: &[Affix], body: u32, amount: u32, way: u32) -> u32 {
        if affixes.is_empty() {
            return body;
        }
        let nil = self.used.push(NIL, 0, 0, 0);
        let fail = self.used.push(FAIL, 0, 0, 0);
        let guard = self.used.push(FLAT_ALT, fail, nil, 0);
        let prefixes = |of: &[Affix]| of.iter().map(|affix| affix.prefix).collect::<Vec<u32>>();
        let suffixes = |of: &[Affix]| of.iter().map(|affix| affix.suffix).collect::<Vec<u32>>();
        let mut stands = None;
        for split in (1..=affixes.len()).rev() {
            let (before, after) = affixes.split_at(split);
            // Head
            let mut head = self.join(&prefixes(before), None).unwrap_or(nil);
            if split > 1 {
                head = self.append(head, guard);
            }
            let head = self.group(head);
            // Core
            let mut core = body;
            if split > 1 && before.iter().all(|affix| self.is_nil(affix.prefix)) {
                core = self.append(core, guard);
            }
            core = self.nest(core, amount, way);
            let closing = self.join(&suffixes(after), None).unwrap_or(nil);
            core = self.append(core, closing);
            for affix in after.iter().rev() {
                core = self.append(affix.prefix, core);
                if affix.nest {
                    core = self.nest(core, amount, way);
                }
                core = self.group(core);
            }
            // Tail
            let closing = self.join(&suffixes(before), None).unwrap_or(nil);
            let tail = self.append(core, closing);
            let tail = self.group(tail);
            let alternative = self.append(head, tail);
            stands = Some(match stands {
                None => alternative,
                Some(first) => self.used.push(UNION, first, alternative, 0),
            });
        }
        stands.unwrap_or(body)
    }
}

/// All operands of a constructor.
pub fn operands(make: &Make) -> Vec<u32> {
    match make {
        Make::Append(a, b) | Make::FlatAlt(a, b) | Make::Union(a, b) => vec![*a, *b],
        Make::Concat(nodes) => nodes.clone(),
        Make::Intersperse(nodes, separator) => [nodes.as_slice(), &[*separator]].concat(),
        Make::Group(a) | Make::Nest(a, ..) | Make::Annotate(a, _) | Make::Align(a) | Make::Hang(a, ..) | Make::Indent(a, _) => {
            vec![*a]
        }
        Make::Enclose(a, before, after) => vec![*a, *before, *after],
        Make::Block(affixes, body, ..) => {
            affixes.iter().flat_map(|affix| [affix.prefix, affix.suffix]).chain([*body]).collect()
        }
        _ => Vec::new(),
    }
}
