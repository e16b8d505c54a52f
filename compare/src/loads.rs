//! The sheets that are timed, each made once as a table by document 01's constructors; the crate's document is made of the
//! same table.

use crate::make::{Affix, Builder, Make};
use crate::model::kind::*;
use crate::tables::Table;

pub struct Load {
    pub name: &'static str,
    pub table: Table,
    pub width: u32,
    /// bytes of output and event records that are lent
    pub room: usize,
    pub slots: usize,
}

/// The loads in the order in which they are told.
pub fn loads() -> Vec<Load> {
    let load = |name, table, width| Load { name, table, width, room: 16_384, slots: 256 };
    vec![
        load("test sheet, 55 rows with remarks", test_sheet(false), 42),
        load("the same, a mark on each row", test_sheet(true), 42),
        load("tool chest, 60 rows of groups", chest(60, false), 42),
        load("the same, a mark on each", chest(60, true), 42),
        load("300 words", words(300), 42),
        load("nested lists", nested_lists(), 42),
        load("chain of groups", chain_of_groups(1000), 42),
        load("block layouts", blocks(), 42),
        Load { room: 65_536, ..load("shared table", shared(), 42) },
        load("tiny sheet", tiny(), 5),
    ]
}

/// Loads of growing size: words (nodes and output grow), chains of groups (steps grow by the square).
pub fn growing() -> Vec<Load> {
    let load = |name, table| Load { name, table, width: 42, room: 16_384, slots: 256 };
    vec![
        load("50 words", words(50)),
        load("100 words", words(100)),
        load("200 words", words(200)),
        load("300 words", words(300)),
        load("chain of 125 groups", chain_of_groups(126)),
        load("chain of 250 groups", chain_of_groups(251)),
        load("chain of 500 groups", chain_of_groups(501)),
        load("chain of 1,000 groups", chain_of_groups(1000)),
    ]
}

/// Calls that can't be refused: a load is far within all sizes.
struct Maker(Builder);

impl Maker {
    fn new() -> Maker {
        Maker(Builder::new(4096, 65_536))
    }

    fn make(&mut self, make: Make) -> u32 {
        self.0.make(&make).expect("a load within its sizes")
    }

    fn text(&mut self, text: &str) -> u32 {
        self.make(Make::Text(text.as_bytes().to_vec(), text.chars().count() as u32))
    }

    fn join(&mut self, nodes: &[u32]) -> u32 {
        self.make(Make::Concat(nodes.to_vec()))
    }

    /// A row and its remark, ending in a Hardline both ways.
    fn remarked(&mut self, fixed: u32, remark: &str, between: u32, end: u32) -> u32 {
        let beside = self.text(&format!("  {remark}"));
        let beside = self.join(&[fixed, beside, end]);
        let words: Vec<u32> = pieces(remark).iter().map(|piece| self.text(piece)).collect();
        let filled = self.make(Make::Intersperse(words, between));
        let below = self.make(Make::Append(end, filled));
        let below = self.make(Make::Nest(below, 4, 0));
        let below = self.join(&[fixed, below, end]);
        self.make(Make::Union(beside, below))
    }

    fn done(self, root: u32) -> Table {
        let mut table = self.0.used;
        table.words.truncate(4 * root as usize + 4);
        table
    }
}

const SAMPLE: &str = include_str!("../../crates/sheet/stdin");

/// Words that stay together up to 12 columns, where they fit in 38.
fn pieces(text: &str) -> Vec<String> {
    let mut pieces: Vec<String> = Vec::new();
    for word in text.split(' ') {
        match pieces.last_mut() {
            Some(last) if last.chars().count() < 12 && last.chars().count() + 1 + word.chars().count() <= 38 => {
                *last = format!("{last} {word}")
            }
            _ => pieces.push(word.to_string()),
        }
    }
    pieces
}

const THINGS: [&str; 12] = [
    "saw",
    "smoothing plane",
    "chisel 12 mm",
    "marking gauge",
    "mallet",
    "brace and bits",
    "spokeshave",
    "try square",
    "rasp",
    "cabinet scraper",
    "drawknife",
    "dovetail saw, 15 teeth",
];
const REMARKS: [(&str, &str); 7] = [
    ("to be", "sharpened"),
    ("lent to the joinery", "since March"),
    ("new", "handle"),
    ("left in the second drawer of the bench", "by the window"),
    ("sound", "oiled"),
    ("one missing", "ordered"),
    ("cracked", "do not use"),
];

/// The rows with remarks of the main job's sample, over and over, as crates row and remark build them: each is a Union, the remark beside the row or
/// filled below it.
fn test_sheet(marks: bool) -> Table {
    let mut m = Maker::new();
    let end = m.make(Make::Hardline);
    let between = m.make(Make::Softline);
    let mut sheet = m.make(Make::Nil);
    let rows = SAMPLE.lines().map(|line| line.splitn(4, ';').collect::<Vec<&str>>());
    for fields in rows.filter(|fields| fields.len() == 4 && !fields[3].is_empty()).cycle().take(55) {
        let fixed = m.text(&format!("{:6}{:>4} g{:>6} mm", fields[0], fields[1], fields[2]));
        let mut row = m.remarked(fixed, fields[3], between, end);
        if marks {
            row = m.make(Make::Annotate(row, 1));
        }
        sheet = m.make(Make::Append(sheet, row));
    }
    m.done(sheet)
}

/// A tool chest: each row a thing, how many, and a remark that goes on the row if it fits and below it if not.
fn chest(rows: usize, marks: bool) -> Table {
    let mut m = Maker::new();
    let line = m.make(Make::Line);
    let between = m.make(Make::Group(line));
    let end = m.make(Make::Hardline);
    let mut sheet = None;
    for row in 0..rows {
        let thing = m.text(THINGS[row % THINGS.len()]);
        let count = m.text(&format!("{} x", 1 + row * 7 % 23));
        let (first, second) = REMARKS[row % REMARKS.len()];
        let (first, second) = (m.text(first), m.text(second));
        let count = m.make(Make::Append(line, count));
        let count = m.make(Make::Group(count));
        let remark = m.join(&[line, first, between, second]);
        let remark = m.make(Make::Nest(remark, 4, 0));
        let remark = m.make(Make::Group(remark));
        let mut whole = m.join(&[thing, count, remark]);
        if marks {
            whole = m.make(Make::Annotate(whole, row as u32));
        }
        sheet = Some(match sheet {
            None => whole,
            Some(above) => m.join(&[above, end, whole]),
        });
    }
    let root = sheet.expect("a row");
    m.done(root)
}

/// A flat list of words, filled into rows.
fn words(count: usize) -> Table {
    let mut m = Maker::new();
    let between = m.make(Make::Softline);
    let some = ["a", "list", "of", "words", "that", "goes", "on", "for", "several", "rows"];
    let words: Vec<u32> = (0..count).map(|i| m.text(some[i % some.len()])).collect();
    let root = m.make(Make::Intersperse(words, between));
    m.done(root)
}

/// Lists in lists, four deep.
fn nested_lists() -> Table {
    fn list(m: &mut Maker, depth: usize, shared: &[u32; 4]) -> u32 {
        if depth == 0 {
            return m.text("item");
        }
        let [inside, next, open, close] = *shared;
        let items: Vec<u32> = (0..if depth == 4 { 3 } else { 4 }).map(|_| list(m, depth - 1, shared)).collect();
        let items = m.make(Make::Intersperse(items, next));
        let body = m.make(Make::Append(inside, items));
        let body = m.make(Make::Nest(body, 2, 0));
        let all = m.join(&[open, body, inside, close]);
        m.make(Make::Group(all))
    }
    let mut m = Maker::new();
    let line = m.make(Make::Line);
    let comma = m.text(",");
    let shared = [m.make(Make::LineFlat), m.make(Make::Append(comma, line)), m.text("["), m.text("]")];
    let root = list(&mut m, 4, &shared);
    m.done(root)
}

/// Groups around one Text that is wider than the sheet, so that each one's fit test walks all that it holds.
fn chain_of_groups(nodes: u32) -> Table {
    let mut table = Table::default();
    table.push_text(&[b'x'; 43], 43);
    for n in 1..nodes {
        table.push(GROUP, n - 1, 0, 0);
    }
    table
}

/// Block layouts, one below the other, of three affixes each.
fn blocks() -> Table {
    let mut m = Maker::new();
    let nil = m.make(Make::Nil);
    let line = m.make(Make::Line);
    let end = m.make(Make::Hardline);
    let mut sheet = None;
    for i in 0..24 {
        let some = ["with first second ->", "let a_name_that_is_long =", "\\z ->"];
        let outer = m.text(some[i % 3]);
        let inner = m.text(some[(i + 1) % 3]);
        let open = m.text("{");
        let close = m.text("}");
        let body = m.text(if i % 3 == 0 { "x + y" } else { "result: x + y - z * a_longer_name" });
        let body = m.make(Make::Append(line, body));
        let body = m.make(Make::Append(body, line));
        let affix = |prefix, suffix, nest| Affix { prefix, suffix, nest };
        let affixes = vec![affix(outer, nil, false), affix(inner, nil, true), affix(open, close, true)];
        let block = m.make(Make::Block(affixes, body, 4, 0));
        sheet = Some(match sheet {
            None => block,
            Some(above) => m.join(&[above, end, block]),
        });
    }
    let root = sheet.expect("a block");
    m.done(root)
}

/// One row of four words in nests, used 8,192 times by thirteen doublings.
fn shared() -> Table {
    let mut m = Maker::new();
    let between = m.make(Make::Softline);
    let end = m.make(Make::Hardline);
    let words: Vec<u32> = ["a", "b", "c", "d"].iter().map(|word| m.text(word)).collect();
    let mut row = m.make(Make::Intersperse(words, between));
    for amount in 1..=22 {
        row = m.make(Make::Nest(row, amount, 0));
    }
    let mut sheet = m.make(Make::Append(row, end));
    for _ in 0..13 {
        sheet = m.make(Make::Append(sheet, sheet));
    }
    m.done(sheet)
}

/// Document 01's table A.
fn tiny() -> Table {
    let words = [6, 0, 2, 2, 5, 0, 0, 0, 6, 2, 1, 1, 3, 1, 2, 0, 6, 3, 2, 2, 1, 3, 4, 0, 1, 0, 5, 0, 2, 6, 0, 0];
    Table { words: words.to_vec(), text: b"ab cd".to_vec() }
}
