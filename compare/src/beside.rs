//! Crate pretty beside us: a node table as the crate's document, its constructors by ours' names, and what it writes.

use crate::make::Make;
use crate::model::{kind::*, Event};
use crate::tables::Table;
use pretty::{Affixes, Arena, BlockDoc, Doc, DocAllocator, DocBuilder, RefDoc, Render, RenderAnnotated};

/// What the crate wrote before it ended, and whether it failed.
#[derive(Clone, Debug, Default, PartialEq, Eq)]
pub struct Wrote {
    pub failed: bool,
    pub bytes: Vec<u8>,
    pub events: Vec<Event>,
    open: Vec<u32>,
}

/// The label of a closing that had no opening.
pub const NO_LABEL: u32 = u32::MAX;

impl Render for Wrote {
    type Error = ();

    fn write_str(&mut self, s: &str) -> Result<usize, ()> {
        self.bytes.extend_from_slice(s.as_bytes());
        Ok(s.len())
    }

    fn fail_doc(&self) {}
}

impl RenderAnnotated<'_, u32> for Wrote {
    fn push_annotation(&mut self, label: &u32) -> Result<(), ()> {
        self.open.push(*label);
        self.events.push(Event { offset: self.bytes.len() as u32, mark: 1, label: *label });
        Ok(())
    }

    fn pop_annotation(&mut self) -> Result<(), ()> {
        let label = self.open.pop().unwrap_or(NO_LABEL);
        self.events.push(Event { offset: self.bytes.len() as u32, mark: 0, label });
        Ok(())
    }
}

/// The crate's document of a valid table's root, each node built once and shared as the table shares it.
/// A Text whose bytes are not all below 128 has its columns by RenderLen; Align is the crate's own `align`.
pub fn document<'a>(arena: &'a Arena<'a, u32>, table: &[u32], text: &'a [u8]) -> RefDoc<'a, u32> {
    let mut docs: Vec<RefDoc<'a, u32>> = Vec::with_capacity(table.len() / 4);
    for node in table.chunks_exact(4) {
        let at = |word: usize| docs[node[word] as usize];
        let doc = match node[0] {
            NIL => Doc::Nil,
            APPEND => Doc::Append(at(1), at(2)),
            GROUP => Doc::Group(at(1)),
            FLAT_ALT => Doc::FlatAlt(at(1), at(2)),
            NEST if node[3] == 0 => Doc::Nest(node[2] as isize, at(1)),
            NEST => Doc::Nest(-(node[2] as isize), at(1)),
            HARDLINE => Doc::Hardline,
            TEXT => {
                let bytes = &text[node[1] as usize..][..node[2] as usize];
                let written = Doc::BorrowedText(std::str::from_utf8(bytes).expect("a valid table"));
                if bytes.is_ascii() {
                    written
                } else {
                    Doc::RenderLen(node[3] as usize, arena.alloc(written))
                }
            }
            ANNOTATED => Doc::Annotated(node[2], at(1)),
            UNION => Doc::Union(at(1), at(2)),
            ALIGN => {
                docs.push(DocBuilder(arena, at(1).into()).align().into_doc());
                continue;
            }
            _ => Doc::Fail,
        };
        docs.push(arena.alloc(doc));
    }
    *docs.last().expect("a valid table")
}

/// What the crate writes of a document at a width.
pub fn write<'a>(document: &Doc<'a, RefDoc<'a, u32>, u32>, width: u32) -> Wrote {
    let mut wrote = Wrote::default();
    wrote.failed = document.render_raw(width as usize, &mut wrote).is_err();
    wrote
}

/// What the crate writes of a valid table.
pub fn lay_out(table: &[u32], text: &[u8], width: u32) -> Wrote {
    let arena = Arena::new();
    write(&document(&arena, table, text), width)
}

/// A document under construction by the crate's own constructors.
pub type Built<'a> = DocBuilder<'a, Arena<'a, u32>, u32>;

/// The crate's constructor of the same name, called with documents made before.
pub fn make<'a>(arena: &'a Arena<'a, u32>, made: &[Built<'a>], make: &Make) -> Built<'a> {
    let at = |n: &u32| made[*n as usize].clone();
    let by = |amount: &u32, way: &u32| if *way == 0 { *amount as isize } else { -(*amount as isize) };
    match make {
        Make::Nil => arena.nil(),
        Make::Fail => arena.fail(),
        Make::Hardline => arena.hardline(),
        Make::Space => arena.space(),
        Make::Line => arena.line(),
        Make::LineFlat => arena.line_(),
        Make::Softline => arena.softline(),
        Make::SoftlineFlat => arena.softline_(),
        Make::Text(bytes, _) => arena.text(String::from_utf8(bytes.clone()).expect("a text")),
        Make::Append(a, b) => at(a).append(at(b)),
        Make::Concat(nodes) => arena.concat(nodes.iter().map(at)),
        Make::Intersperse(nodes, separator) => arena.intersperse(nodes.iter().map(at), at(separator)),
        Make::FlatAlt(broken, flat) => at(broken).flat_alt(at(flat)),
        Make::Group(a) => at(a).group(),
        Make::Nest(a, amount, way) => at(a).nest(by(amount, way)),
        Make::Annotate(a, label) => at(a).annotate(*label),
        Make::Union(a, b) => at(a).union(at(b)),
        Make::Align(a) => at(a).align(),
        Make::Hang(a, amount, way) => at(a).hang(by(amount, way)),
        Make::Indent(a, amount) => at(a).indent(*amount as usize),
        Make::Enclose(a, before, after) => at(a).enclose(at(before), at(after)),
        Make::Block(affixes, body, amount, way) => {
            let affixes = affixes.iter().map(|affix| {
                let both = Affixes::new(at(&affix.prefix), at(&affix.suffix));
                if affix.nest {
                    both.nest()
                } else {
                    both
                }
            });
            BlockDoc { affixes: affixes.collect(), body: at(body) }.format(by(amount, way))
        }
    }
}

/// Whether the crate's document and what a node unfolds to are the same node by node. The crate's `align` is looked into by
/// asking it for its document at a column that is the indentation.
pub fn same_nodes<'a>(document: &Doc<'a, RefDoc<'a, u32>, u32>, table: &Table, n: usize) -> bool {
    let node = &table.words[4 * n..4 * n + 4];
    let child = |document: &RefDoc<'a, u32>, word: usize| same_nodes(document, table, node[word] as usize);
    let text = |s: &str, columns: usize| {
        node[0] == TEXT && table.text[node[1] as usize..][..node[2] as usize] == *s.as_bytes() && node[3] as usize == columns
    };
    match document {
        Doc::Nil => node[0] == NIL,
        Doc::Append(a, b) => node[0] == APPEND && child(a, 1) && child(b, 2),
        Doc::Group(a) => node[0] == GROUP && child(a, 1),
        Doc::FlatAlt(a, b) => node[0] == FLAT_ALT && child(a, 1) && child(b, 2),
        Doc::Nest(by, a) => {
            let amount = if node[3] == 0 { node[2] as isize } else { -(node[2] as isize) };
            node[0] == NEST && *by == amount && child(a, 1)
        }
        Doc::Hardline => node[0] == HARDLINE,
        Doc::RenderLen(columns, inner) => match &**inner {
            Doc::OwnedText(s) => text(s, *columns),
            Doc::BorrowedText(s) => text(s, *columns),
            _ => false,
        },
        Doc::OwnedText(s) => text(s, s.len()),
        Doc::BorrowedText(s) => text(s, s.len()),
        Doc::Annotated(label, a) => node[0] == ANNOTATED && *label == node[2] && child(a, 1),
        Doc::Union(a, b) => node[0] == UNION && child(a, 1) && child(b, 2),
        Doc::Column(at_column) => {
            let Doc::Nesting(at_indentation) = &*at_column(7) else { return false };
            node[0] == ALIGN && child(&at_indentation(7), 1)
        }
        Doc::Fail => node[0] == FAIL,
        Doc::Nesting(_) | Doc::SmallText(_) => false,
    }
}
