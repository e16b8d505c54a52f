//! The runs that are known by name: document 01's marked cases, and the tables of docs/DIFFERENCES.md. They stand in
//! known.txt, one to a line: a name, the table as 01 writes it, the text in quotes (\n is byte 10), the width, and a step limit if 01 gives one.

use crate::calls::Call;
use crate::tables::Table;

pub struct Known {
    pub name: &'static str,
    pub call: Call,
}

/// All of them, in the file's order. A name starts with "case" or "differs".
pub fn known() -> Vec<Known> {
    include_str!("../known.txt").lines().filter(|line| !line.is_empty() && !line.starts_with('#')).map(one).collect()
}

fn one(line: &'static str) -> Known {
    let parts: Vec<&'static str> = line.split('|').map(str::trim).collect();
    let words = parts[1].split(|c: char| !c.is_ascii_digit()).filter(|n| !n.is_empty());
    let words: Vec<u32> = words.map(|n| n.parse().expect("a word")).collect();
    let text = parts[2].trim_matches('"').replace("\\n", "\n").into_bytes();
    let mut call = Call::roomy(Table { words, text }, parts[3].parse().expect("a width"));
    if let Some(limit) = parts.get(4) {
        call.limit = limit.parse().expect("a limit");
    }
    Known { name: parts[0], call }
}
