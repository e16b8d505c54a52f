//! Node tables: written and read as words, made at random, and all of them up to a size.

use crate::model::{kind::*, shape};

/// A sequence of numbers that a seed fixes (SplitMix64).
#[derive(Clone, Default)]
pub struct Random(pub u64);

impl Random {
    pub fn draw(&mut self) -> u64 {
        self.0 = self.0.wrapping_add(0x9e37_79b9_7f4a_7c15);
        let mut z = self.0;
        z = (z ^ (z >> 30)).wrapping_mul(0xbf58_476d_1ce4_e5b9);
        z = (z ^ (z >> 27)).wrapping_mul(0x94d0_49bb_1331_11eb);
        z ^ (z >> 31)
    }

    /// A number below n, which is not 0.
    pub fn below(&mut self, n: usize) -> usize {
        (((self.draw() >> 32) * n as u64) >> 32) as usize
    }

    /// One chance in n.
    pub fn one_in(&mut self, n: usize) -> bool {
        self.below(n) == 0
    }

    pub fn of<'a, T>(&mut self, from: &'a [T]) -> &'a T {
        &from[self.below(from.len())]
    }
}

/// A table and its text bytes.
#[derive(Clone, Debug, Default, PartialEq, Eq)]
pub struct Table {
    pub words: Vec<u32>,
    pub text: Vec<u8>,
}

impl Table {
    pub fn nodes(&self) -> usize {
        self.words.len() / 4
    }

    pub fn push(&mut self, kind: u32, a: u32, b: u32, c: u32) -> u32 {
        self.words.extend([kind, a, b, c]);
        self.nodes() as u32 - 1
    }

    /// A Text of these bytes, put after the text bytes that stand.
    pub fn push_text(&mut self, bytes: &[u8], columns: u32) -> u32 {
        let start = self.text.len() as u32;
        self.text.extend_from_slice(bytes);
        self.push(TEXT, start, bytes.len() as u32, columns)
    }

    /// How many nodes the root unfolds to.
    pub fn unfolded(&self) -> u64 {
        let mut sizes: Vec<u64> = Vec::with_capacity(self.nodes());
        for node in self.words.chunks(4) {
            let (children, _) = shape(node[0]).expect("a valid table");
            let below = node[1..1 + children].iter().fold(1u64, |sum, &child| sum.saturating_add(sizes[child as usize]));
            sizes.push(below);
        }
        sizes.last().copied().unwrap_or(0)
    }

    /// As document 01 writes a table: (kind,a,b,c) for each node.
    pub fn written(&self) -> String {
        let nodes: Vec<String> = self.words.chunks(4).map(|n| format!("({},{},{},{})", n[0], n[1], n[2], n[3])).collect();
        nodes.join(" ")
    }

    /// The root's document in words: Append is +, a Text is quoted.
    pub fn said(&self) -> String {
        self.say(self.nodes() - 1)
    }

    fn say(&self, n: usize) -> String {
        let node = &self.words[4 * n..4 * n + 4];
        let child = |word: usize| self.say(node[word] as usize);
        match node[0] {
            NIL => "Nil".into(),
            APPEND => format!("({} + {})", child(1), child(2)),
            GROUP => format!("Group({})", child(1)),
            FLAT_ALT => format!("FlatAlt({}, {})", child(1), child(2)),
            NEST => format!("Nest {}{}({})", if node[3] == 0 { "" } else { "-" }, node[2], child(1)),
            HARDLINE => "Hardline".into(),
            TEXT => {
                let bytes = &self.text[node[1] as usize..][..node[2] as usize];
                let columns = if bytes.is_ascii() { String::new() } else { format!(" of {} columns", node[3]) };
                format!("`{}`{columns}", shown(bytes))
            }
            ANNOTATED => format!("Annotated {}({})", node[2], child(1)),
            UNION => format!("Union({}, {})", child(1), child(2)),
            ALIGN => format!("Align({})", child(1)),
            _ => "Fail".into(),
        }
    }
}

/// Bytes as 01 writes them: \n for byte 10, and marks where events stand are left to the caller.
pub fn shown(bytes: &[u8]) -> String {
    String::from_utf8_lossy(bytes).replace('\n', "\\n")
}

// ---- at random

/// Texts that are not all below 128, of one to four bytes a character.
const BEYOND: [&str; 8] = ["é", "ß", "€", "日本", "e\u{301}", "x\u{200b}y", "😀", "aé"];

const KINDS: usize = 11;

/// A valid table of so many nodes. Each table has its own leaning towards some kinds, so that there are tables with
/// many trials, with none, all marks, and so on. Most nodes take up a node that nothing uses yet; the rest share.
/// Some tables are a spine, in which each node that has children stands on the last such, so that much waits at once.
pub fn random_table(random: &mut Random, nodes: usize) -> Table {
    let mut weights = [2, 9, 4, 4, 3, 4, 8, 3, 5, 2, 1];
    for weight in weights.iter_mut() {
        if random.one_in(3) {
            *weight *= random.below(3);
        }
    }
    weights[TEXT as usize] += 1;
    let total: usize = weights.iter().sum();
    let spine = random.one_in(4).then(|| 2 + random.below(1000));
    let mut top = 0;
    let mut table = Table::default();
    let mut free: Vec<u32> = Vec::new();
    for n in 0..nodes {
        let left = nodes - n;
        let mut kind = pick(random, &weights, total);
        if free.len() > left {
            kind = *random.of(&[APPEND, APPEND, APPEND, FLAT_ALT, UNION]);
        }
        if n == 0 && shape(kind) != Some((0, 0)) {
            kind = TEXT;
        }
        let (children, _) = shape(kind).expect("a kind");
        let node = random_node(random, &mut table, &mut free, kind);
        if let Some(chance) = spine.filter(|_| children > 0) {
            if !random.one_in(chance) {
                table.words[4 * n + 1 + random.below(children)] = top;
            }
            top = node;
        }
        free.push(node);
    }
    table
}

fn pick(random: &mut Random, weights: &[usize; KINDS], total: usize) -> u32 {
    let mut left = random.below(total);
    for (kind, &weight) in weights.iter().enumerate() {
        if left < weight {
            return kind as u32;
        }
        left -= weight;
    }
    TEXT
}

fn random_child(random: &mut Random, table: &Table, free: &mut Vec<u32>) -> u32 {
    if free.is_empty() || random.one_in(8) {
        random.below(table.nodes()) as u32
    } else if random.one_in(4) {
        free.swap_remove(random.below(free.len()))
    } else {
        free.pop().expect("not empty")
    }
}

fn random_node(random: &mut Random, table: &mut Table, free: &mut Vec<u32>, kind: u32) -> u32 {
    match kind {
        NIL | HARDLINE | FAIL => table.push(kind, 0, 0, 0),
        TEXT => random_text(random, table),
        GROUP | ALIGN => {
            let child = random_child(random, table, free);
            table.push(kind, child, 0, 0)
        }
        ANNOTATED => {
            let child = random_child(random, table, free);
            let label = if random.one_in(20) { random.draw() as u32 } else { random.below(10) as u32 };
            table.push(kind, child, label, 0)
        }
        NEST => {
            let child = random_child(random, table, free);
            let amount = if random.one_in(40) { random.below(1001) } else { random.below(6) };
            table.push(kind, child, amount as u32, random.below(2) as u32)
        }
        _ => {
            let second = random_child(random, table, free);
            let first = random_child(random, table, free);
            table.push(kind, first, second, 0)
        }
    }
}

fn random_text(random: &mut Random, table: &mut Table) -> u32 {
    let older: Vec<usize> = (0..table.nodes()).filter(|&n| table.words[4 * n] == TEXT).collect();
    if !older.is_empty() && random.one_in(6) {
        // an older range, or the start of it where that is sound
        let n = *random.of(&older);
        let (start, length, columns) = (table.words[4 * n + 1], table.words[4 * n + 2], table.words[4 * n + 3]);
        let bytes = &table.text[start as usize..][..length as usize];
        if bytes.is_ascii() {
            let part = random.below(length as usize + 1) as u32;
            return table.push(TEXT, start, part, part);
        }
        return table.push(TEXT, start, length, columns);
    }
    if random.one_in(7) {
        let bytes = random.of(&BEYOND).as_bytes();
        let columns = random.below(bytes.len() + 1) as u32;
        return table.push_text(bytes, columns);
    }
    let length = if random.one_in(30) { random.below(60) } else { random.below(6) };
    let first = table.text.len();
    let bytes: Vec<u8> = (0..length).map(|i| b'a' + ((first + i) % 26) as u8).collect();
    table.push_text(&bytes, length as u32)
}

/// A size for a random table: most are small, few are large.
pub fn random_size(random: &mut Random) -> usize {
    match random.below(2000) {
        0 => 1 + random.below(1024),
        1..=20 => 1 + random.below(120),
        21..=400 => 1 + random.below(40),
        _ => 1 + random.below(14),
    }
}

/// A width: most are small, so that a row ends past it about as often as not.
pub fn random_width(random: &mut Random) -> u32 {
    match random.below(20) {
        0 => random.below(65_536) as u32,
        1..=3 => random.below(80) as u32,
        _ => random.below(13) as u32,
    }
}

// ---- as large as they come

/// Tables of 1,024 nodes in which as much waits, nests or is tried at once as can be.
pub fn extreme_tables() -> Vec<Table> {
    let chain = |first: &[u32; 4], link: &dyn Fn(u32) -> [u32; 4], last: [u32; 4]| {
        let mut words = first.to_vec();
        (1..1023).for_each(|n| words.extend(link(n)));
        words.extend(last);
        Table { words, text: b"ab".to_vec() }
    };
    let text = [TEXT, 0, 1, 1];
    let wide = [TEXT, 0, 2, 2];
    let mut tables = vec![
        chain(&text, &|n| [APPEND, n - 1, 0, 0], [APPEND, 1022, 0, 0]),
        chain(&text, &|n| [APPEND, 0, n - 1, 0], [APPEND, 0, 1022, 0]),
        chain(&text, &|n| if n == 1 { [GROUP, 0, 0, 0] } else { [APPEND, n - 1, 0, 0] }, [APPEND, 1022, 1022, 0]),
        chain(&wide, &|n| [UNION, n - 1, 0, 0], [UNION, 1022, 0, 0]),
        chain(&wide, &|n| [UNION, 0, n - 1, 0], [UNION, 0, 1022, 0]),
        chain(&[FAIL, 0, 0, 0], &|n| [UNION, n - 1, 0, 0], [UNION, 1022, 0, 0]),
        chain(&text, &|n| [ANNOTATED, n - 1, n, 0], [ANNOTATED, 1022, 0, 0]),
        chain(
            &wide,
            &|n| [if n % 2 == 0 { UNION } else { ANNOTATED }, n - 1, if n % 2 == 0 { 0 } else { n }, 0],
            [GROUP, 1022, 0, 0],
        ),
        chain(&[HARDLINE, 0, 0, 0], &|n| [NEST, n - 1, 1000, 0], [NEST, 1022, 1000, 0]),
        chain(&[HARDLINE, 0, 0, 0], &|n| [NEST, n - 1, if n < 66 { 1 } else { 1000 }, u32::from(n < 66)], [NEST, 1022, 535, 0]),
        chain(&[HARDLINE, 0, 0, 0], &|n| [APPEND, n - 1, n - 1, 0], [GROUP, 1022, 0, 0]),
    ];
    for kind in [GROUP, ALIGN] {
        tables.push(chain(&wide, &|n| [kind, n - 1, 0, 0], [kind, 1022, 0, 0]));
    }
    tables
}

// ---- all up to a size

/// What the nodes of an enumeration are made of.
pub struct Parts {
    /// the lengths of Texts; each Text has letters of its own
    pub texts: Vec<usize>,
    /// one Text of two bytes and one column
    pub beyond: bool,
    pub leaves: Vec<u32>,
    /// Group, Align and Annotated, whose label is its number
    pub single: Vec<u32>,
    /// Nest's amount and way
    pub nests: Vec<(u32, u32)>,
    pub pairs: Vec<u32>,
}

impl Parts {
    /// All eleven kinds, both nests.
    pub fn all() -> Parts {
        Parts {
            texts: vec![1, 3],
            beyond: true,
            leaves: vec![NIL, HARDLINE, FAIL],
            single: vec![GROUP, ANNOTATED, ALIGN],
            nests: vec![(2, 0), (1, 1)],
            pairs: vec![APPEND, FLAT_ALT, UNION],
        }
    }
}

/// Calls `each` with every table of exactly so many nodes in which the root reaches every node, the nodes are numbered as
/// they are first left when the root is walked, and no two nodes say the same (but Texts): so every document once.
pub fn every_table(parts: &Parts, nodes: usize, each: &mut impl FnMut(&Table)) {
    let mut table = Table::default();
    let mut used = vec![0usize; nodes];
    grow(parts, nodes, &mut table, &mut used, each);
}

fn grow(parts: &Parts, nodes: usize, table: &mut Table, used: &mut Vec<usize>, each: &mut impl FnMut(&Table)) {
    let n = table.nodes();
    if n == nodes {
        if used[..nodes - 1].iter().all(|&uses| uses > 0) && in_order(table) {
            each(table);
        }
        return;
    }
    // each later node takes up at most one unused node more than it adds, and only the root is left unused
    let unused = used[..n].iter().filter(|&&uses| uses == 0).count();
    if unused > nodes - n + 1 {
        return;
    }
    let mut try_node = |table: &mut Table, kind: u32, a: u32, b: u32, c: u32| {
        if kind != TEXT && table.words.chunks(4).any(|node| node == [kind, a, b, c]) {
            return;
        }
        table.push(kind, a, b, c);
        let (children, _) = shape(kind).expect("a kind");
        if children > 0 {
            used[a as usize] += 1;
        }
        if children > 1 {
            used[b as usize] += 1;
        }
        grow(parts, nodes, table, used, each);
        if children > 0 {
            used[a as usize] -= 1;
        }
        if children > 1 {
            used[b as usize] -= 1;
        }
        table.words.truncate(4 * n);
    };
    for &leaf in &parts.leaves {
        try_node(table, leaf, 0, 0, 0);
    }
    let start = table.text.len();
    for &length in &parts.texts {
        let bytes: Vec<u8> = (start..start + length).map(|i| b'a' + (i % 26) as u8).collect();
        table.text.extend_from_slice(&bytes);
        try_node(table, TEXT, start as u32, length as u32, length as u32);
        table.text.truncate(start);
    }
    if parts.beyond {
        table.text.extend_from_slice("é".as_bytes());
        try_node(table, TEXT, start as u32, 2, 1);
        table.text.truncate(start);
    }
    for a in 0..n as u32 {
        for &kind in &parts.single {
            try_node(table, kind, a, if kind == ANNOTATED { n as u32 } else { 0 }, 0);
        }
        for &(amount, way) in &parts.nests {
            try_node(table, NEST, a, amount, way);
        }
        for b in 0..n as u32 {
            for &kind in &parts.pairs {
                try_node(table, kind, a, b, 0);
            }
        }
    }
}

/// Whether walking the root, children first and left to right, leaves the nodes in the order of their numbers.
fn in_order(table: &Table) -> bool {
    fn walk(table: &Table, n: usize, left: &mut usize) -> bool {
        if n < *left {
            return true;
        }
        let node = &table.words[4 * n..4 * n + 4];
        let (children, _) = shape(node[0]).expect("a kind");
        node[1..1 + children].iter().all(|&child| walk(table, child as usize, left)) && {
            *left += 1;
            n + 1 == *left
        }
    }
    walk(table, table.nodes() - 1, &mut 0)
}
