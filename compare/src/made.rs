//! A constructor's call as a C program makes it, on a lent table, a lent text and the builder's words: by document 01, and by
//! our library.

use crate::make::{Affix, Builder, Make};
use crate::tables::Table;

/// What is lent. The builder's words are the nodes in use, the text bytes in use and the node made.
#[derive(Clone, Debug, PartialEq, Eq)]
pub struct Lent {
    pub table: Vec<u32>,
    pub text: Vec<u8>,
    pub counts: Vec<u32>,
}

impl Lent {
    /// The call by document 01. A refusal leaves everything as it was.
    pub fn by_model(&mut self, make: &Make) -> u32 {
        let [nodes, bytes, _, ..] = self.counts[..] else { return 1 };
        let used = (self.table.get(..4 * nodes as usize), self.text.get(..bytes as usize));
        let (Some(words), Some(text)) = used else { return 1 };
        let used = Table { words: words.to_vec(), text: text.to_vec() };
        let mut builder = Builder { used, table_lent: self.table.len(), text_lent: self.text.len() };
        match builder.make(make) {
            Err(refusal) => refusal,
            Ok(node) => {
                let used = builder.used;
                self.table[..used.words.len()].copy_from_slice(&used.words);
                self.text[..used.text.len()].copy_from_slice(&used.text);
                self.counts[..3].copy_from_slice(&[used.nodes() as u32, used.text.len() as u32, node]);
                0
            }
        }
    }
}

#[cfg(archive)]
extern "C" {
    fn pursegable_make(
        what: u32,
        a: u32,
        b: u32,
        c: u32,
        table: *mut u32,
        table_len: usize,
        text: *mut u8,
        text_len: usize,
        counts: *mut u32,
        counts_len: usize,
    ) -> u32;
    fn pursegable_text(
        bytes: *const u8,
        bytes_len: usize,
        columns: u32,
        table: *mut u32,
        table_len: usize,
        text: *mut u8,
        text_len: usize,
        counts: *mut u32,
        counts_len: usize,
    ) -> u32;
    fn pursegable_concat(
        nodes: *const u32,
        nodes_len: usize,
        table: *mut u32,
        table_len: usize,
        text: *const u8,
        text_len: usize,
        counts: *mut u32,
        counts_len: usize,
    ) -> u32;
    fn pursegable_intersperse(
        nodes: *const u32,
        nodes_len: usize,
        separator: u32,
        table: *mut u32,
        table_len: usize,
        text: *const u8,
        text_len: usize,
        counts: *mut u32,
        counts_len: usize,
    ) -> u32;
    fn pursegable_block(
        body: u32,
        amount: u32,
        way: u32,
        prefixes: *const u32,
        prefixes_len: usize,
        suffixes: *const u32,
        suffixes_len: usize,
        nests: *const u8,
        nests_len: usize,
        table: *mut u32,
        table_len: usize,
        text: *const u8,
        text_len: usize,
        counts: *mut u32,
        counts_len: usize,
    ) -> u32;
}

/// A block as its export takes it: body, amount and way, and a list each of prefixes, suffixes and flags.
#[derive(Clone, Debug)]
pub struct Lists {
    pub words: [u32; 3],
    pub prefixes: Vec<u32>,
    pub suffixes: Vec<u32>,
    pub nests: Vec<u8>,
}

impl Lists {
    /// A flag that is set is any byte but 0.
    pub fn of(affixes: &[Affix], words: [u32; 3]) -> Lists {
        const SET: [u8; 4] = [1, 2, 0x80, 0xff];
        let flag = |(i, affix): (usize, &Affix)| if affix.nest { SET[i % 4] } else { 0 };
        Lists {
            words,
            prefixes: affixes.iter().map(|affix| affix.prefix).collect(),
            suffixes: affixes.iter().map(|affix| affix.suffix).collect(),
            nests: affixes.iter().enumerate().map(flag).collect(),
        }
    }
}

#[cfg(archive)]
impl Lent {
    /// The call by our library.
    pub fn by_archive(&mut self, make: &Make) -> u32 {
        let (t, tl, x, xl) = (self.table.as_mut_ptr(), self.table.len(), self.text.as_mut_ptr(), self.text.len());
        let (c, cl) = (self.counts.as_mut_ptr(), self.counts.len());
        // SAFETY: each pointer is of a slice with the length handed beside it, and no two overlap.
        unsafe {
            match make {
                Make::Text(bytes, columns) => pursegable_text(bytes.as_ptr(), bytes.len(), *columns, t, tl, x, xl, c, cl),
                Make::Concat(nodes) => pursegable_concat(nodes.as_ptr(), nodes.len(), t, tl, x, xl, c, cl),
                Make::Intersperse(nodes, separator) => {
                    pursegable_intersperse(nodes.as_ptr(), nodes.len(), *separator, t, tl, x, xl, c, cl)
                }
                Make::Block(affixes, body, amount, way) => self.by_lists(&Lists::of(affixes, [*body, *amount, *way])),
                other => self.by_words(words(other)),
            }
        }
    }

    /// `pursegable_block` on lists of any lengths.
    pub fn by_lists(&mut self, lists: &Lists) -> u32 {
        let Lists { words: [body, amount, way], prefixes, suffixes, nests } = lists;
        let (p, pl, s, sl) = (prefixes.as_ptr(), prefixes.len(), suffixes.as_ptr(), suffixes.len());
        let (t, tl, x, xl) = (self.table.as_mut_ptr(), self.table.len(), self.text.as_ptr(), self.text.len());
        let (c, cl) = (self.counts.as_mut_ptr(), self.counts.len());
        // SAFETY: as above.
        unsafe { pursegable_block(*body, *amount, *way, p, pl, s, sl, nests.as_ptr(), nests.len(), t, tl, x, xl, c, cl) }
    }

    /// `pursegable_make` by its number and operands, whatever they are.
    pub fn by_words(&mut self, [what, a, b, d]: [u32; 4]) -> u32 {
        let (t, tl, x, xl) = (self.table.as_mut_ptr(), self.table.len(), self.text.as_mut_ptr(), self.text.len());
        let (c, cl) = (self.counts.as_mut_ptr(), self.counts.len());
        // SAFETY: as above.
        unsafe { pursegable_make(what, a, b, d, t, tl, x, xl, c, cl) }
    }
}

/// The number and operands that `pursegable_make` takes. What a constructor doesn't use it must not look at.
#[cfg(archive)]
fn words(make: &Make) -> [u32; 4] {
    const ANY: u32 = 0x5a5a_5a5a;
    match *make {
        Make::Nil => [0, ANY, ANY, ANY],
        Make::Append(a, b) => [1, a, b, ANY],
        Make::Group(a) => [2, a, ANY, ANY],
        Make::FlatAlt(a, b) => [3, a, b, ANY],
        Make::Nest(a, amount, way) => [4, a, amount, way],
        Make::Hardline => [5, ANY, ANY, ANY],
        Make::Annotate(a, label) => [7, a, label, ANY],
        Make::Union(a, b) => [8, a, b, ANY],
        Make::Align(a) => [9, a, ANY, ANY],
        Make::Fail => [10, ANY, ANY, ANY],
        Make::Space => [11, ANY, ANY, ANY],
        Make::Line => [12, ANY, ANY, ANY],
        Make::LineFlat => [13, ANY, ANY, ANY],
        Make::Softline => [14, ANY, ANY, ANY],
        Make::SoftlineFlat => [15, ANY, ANY, ANY],
        Make::Hang(a, amount, way) => [16, a, amount, way],
        Make::Indent(a, amount) => [17, a, amount, ANY],
        Make::Enclose(a, before, after) => [18, a, before, after],
        Make::Text(..) | Make::Concat(_) | Make::Intersperse(..) | Make::Block(..) => unreachable!("an export of its own"),
    }
}
