//! The kinds of difference between document 01 and the crate on one run, and smaller tables to look for them in.

use crate::beside::{Wrote, NO_LABEL};
use crate::model::{kind::*, shape, Event, Report};
use crate::tables::Table;

/// Every kind of difference that the two ends of one run show. Kinds that go by what was written of which arm are told
/// only of tables in which no letter stands twice.
pub fn kinds(table: &Table, report: &Report, wrote: &Wrote) -> Vec<&'static str> {
    let mut all = Vec::new();
    match (report.answer, wrote.failed) {
        (6, true) => {
            if !wrote.bytes.is_empty() {
                all.push("fails: part of the output is written before");
            }
            if !wrote.events.is_empty() {
                all.push("fails: marks are handed out before");
            }
        }
        (6, false) => all.push("bytes: a Fail swallowed"),
        (_, true) => all.push("bytes: fails where 01 lays out"),
        _ if wrote.bytes != report.bytes => all.extend(bytes_differ(table, &report.bytes, &wrote.bytes)),
        _ if wrote.events != report.events => {
            let trials = table.words.chunks(4).any(|node| node[0] == UNION);
            let hardlines = table.words.chunks(4).any(|node| node[0] == HARDLINE);
            for [by_hardline, by_trial, by_both] in marks_differ(&report.events, &wrote.events) {
                all.push(match (trials, hardlines) {
                    (false, _) => by_hardline,
                    (_, false) => by_trial,
                    _ => by_both,
                });
            }
        }
        _ => {}
    }
    all
}

fn letters(bytes: &[u8]) -> Vec<u8> {
    bytes.iter().copied().filter(u8::is_ascii_lowercase).collect()
}

fn lines(bytes: &[u8]) -> usize {
    bytes.iter().filter(|&&b| b == b'\n').count()
}

fn bytes_differ(table: &Table, ours: &[u8], theirs: &[u8]) -> Vec<&'static str> {
    let mut all = Vec::new();
    let mut places = Vec::new();
    arms(table, table.nodes() - 1, None, &mut places);
    let mut seen: Vec<u8> = places.iter().map(|&(letter, _)| letter).collect();
    seen.sort_unstable();
    if seen.windows(2).any(|two| two[0] == two[1]) || table.text.len() > 26 {
        return all;
    }
    let (our_letters, their_letters) = (letters(ours), letters(theirs));
    // both gave a trial up if both wrote of a second arm
    let both_gave_up = places
        .iter()
        .any(|(letter, arm)| *arm == Some(SECOND) && our_letters.contains(letter) && their_letters.contains(letter));
    if both_gave_up && ours.starts_with(theirs) {
        all.push(if lines(ours) > lines(theirs) { "bytes: rows lost" } else { "bytes: the rest of a row lost" });
    } else if part_lost(ours, theirs) {
        all.push("bytes: part of a row lost");
    }
    for (letter, arm) in places {
        if their_letters.contains(&letter) && !our_letters.contains(&letter) {
            all.extend(arm);
        }
    }
    for n in (0..table.nodes()).filter(|&n| table.words[4 * n] == FLAT_ALT) {
        // both sides were chosen from, with no Union to choose otherwise
        let side = |word: usize| {
            let mut places = Vec::new();
            arms(table, table.words[4 * n + word] as usize, None, &mut places);
            places.iter().filter(|(_, arm)| arm.is_none()).map(|&(letter, _)| letter).collect::<Vec<u8>>()
        };
        let only = |here: &[u8], not: &[u8], from: &[u8]| {
            from.iter().any(|l| here.contains(l)) && !from.iter().any(|l| not.contains(l))
        };
        let (broken, flat) = (side(1), side(2));
        if only(&our_letters, &their_letters, &broken) && only(&their_letters, &our_letters, &flat) {
            all.push("bytes: flat where 01 is broken");
        }
        if only(&our_letters, &their_letters, &flat) && only(&their_letters, &our_letters, &broken) {
            all.push("bytes: broken where 01 is flat");
        }
    }
    if our_letters == their_letters && lines(ours) == lines(theirs) {
        all.push("bytes: other blanks");
    }
    all
}

const SECOND: &str = "bytes: the second arm where 01 takes the first";

/// Each Text's first letter, and what it would mean if only the crate wrote it: by the outermost choice that it stands in.
fn arms(table: &Table, n: usize, arm: Option<&'static str>, places: &mut Vec<(u8, Option<&'static str>)>) {
    let node = &table.words[4 * n..4 * n + 4];
    let mut down = |word: usize, arm| arms(table, node[word] as usize, arm, places);
    match node[0] {
        TEXT if node[2] > 0 => places.push((table.text[node[1] as usize], arm)),
        UNION => {
            down(1, arm.or(Some("bytes: the first arm where 01 takes the second")));
            down(2, arm.or(Some(SECOND)));
        }
        kind => (1..=shape(kind).map_or(0, |(children, _)| children)).for_each(|word| down(word, arm)),
    }
}

/// Whether theirs is ours without letters in the middle of a row.
fn part_lost(ours: &[u8], theirs: &[u8]) -> bool {
    let same = ours.iter().zip(theirs).take_while(|(a, b)| a == b).count();
    theirs.len() < ours.len() && {
        let lost = &ours[same..same + ours.len() - theirs.len()];
        ours.ends_with(&theirs[same..])
            && lost.iter().all(u8::is_ascii_lowercase)
            && theirs.get(same).is_some_and(u8::is_ascii_lowercase)
    }
}

/// The same words for each cause: a Hardline, a trial, or both are in the table.
macro_rules! by_cause {
    ($what: literal) => {
        [
            concat!("marks: ", $what, ", by a Hardline"),
            concat!("marks: ", $what, ", by a trial"),
            concat!("marks: ", $what, ", by both"),
        ]
    };
}

fn marks_differ(ours: &[Event], theirs: &[Event]) -> Vec<[&'static str; 3]> {
    let of = |events: &[Event], mark: u32| {
        let mut list: Vec<(u32, u32)> = events.iter().filter(|e| e.mark == mark).map(|e| (e.label, e.offset)).collect();
        list.sort_unstable();
        list
    };
    let (our_ends, their_ends) = (of(ours, 0), of(theirs, 0));
    if their_ends.iter().any(|end| end.0 == NO_LABEL) {
        return vec![by_cause!("a closing too many")];
    }
    if of(theirs, 1) != of(ours, 1) {
        return vec![by_cause!("of another arm")];
    }
    if their_ends.len() < our_ends.len() {
        return vec![by_cause!("never closed")];
    }
    if our_ends == their_ends {
        return vec![by_cause!("in another order")];
    }
    let mut all = Vec::new();
    let ends = || our_ends.iter().zip(&their_ends).filter(|(a, b)| a.0 == b.0);
    if ends().any(|(a, b)| b.1 > a.1) {
        all.push(by_cause!("closed late"));
    }
    if ends().any(|(a, b)| b.1 < a.1) {
        all.push(by_cause!("closed early"));
    }
    all
}

/// How much there is to a table: nodes first, then what kinds they are, how long their Texts, and what it unfolds to.
pub fn weight(table: &Table) -> (usize, u32) {
    let kinds = [1, 1, 3, 3, 3, 1, 2, 2, 2, 3, 3];
    let one = |node: &[u32]| kinds[node[0] as usize] + if matches!(node[0], TEXT | NEST) { node[2] } else { 0 };
    (table.nodes(), table.words.chunks(4).map(one).sum::<u32>() + 2 * table.unfolded() as u32)
}

/// Tables that are one change smaller: a node given for its parent, a node left out, a shorter Text or Nest, a lesser width.
pub fn smaller(table: &Table, width: u32) -> Vec<(Table, u32)> {
    let mut all = Vec::new();
    let nodes = table.nodes();
    for n in 0..nodes {
        let node: Vec<u32> = table.words[4 * n..4 * n + 4].to_vec();
        let (children, _) = shape(node[0]).expect("a valid table");
        for &child in &node[1..1 + children] {
            all.push((renamed(table, n as u32, child), width));
        }
        let mut with = |words: [u32; 4]| {
            let mut changed = table.clone();
            changed.words[4 * n..4 * n + 4].copy_from_slice(&words);
            all.push((tidy(&changed), width));
        };
        if children > 0 {
            with([NIL, 0, 0, 0]);
            with([HARDLINE, 0, 0, 0]);
        }
        if node[0] == TEXT && node[2] > 1 {
            with([TEXT, node[1], 1, 1]);
        }
        if node[0] == TEXT || node[0] == HARDLINE {
            with([NIL, 0, 0, 0]);
        }
        if node[0] == NEST && node[2] > 1 {
            with([NEST, node[1], 1, node[3]]);
        }
    }
    for m in 0..nodes {
        for n in 0..m {
            if table.words[4 * m..4 * m + 4] == table.words[4 * n..4 * n + 4]
                || table.words[4 * m] == table.words[4 * n] && table.words[4 * m] == TEXT
            {
                all.push((renamed(table, m as u32, n as u32), width));
            }
        }
    }
    all.extend((0..width).map(|width| (table.clone(), width)));
    all
}

/// The table in which node n is given up for node `by`, which is below it.
fn renamed(table: &Table, n: u32, by: u32) -> Table {
    let mut changed = table.clone();
    if n as usize + 1 == table.nodes() {
        changed.words.truncate(4 * by as usize + 4);
    }
    for node in changed.words.chunks_mut(4) {
        let (children, _) = shape(node[0]).expect("a valid table");
        node[1..1 + children].iter_mut().filter(|child| **child == n).for_each(|child| *child = by);
    }
    tidy(&changed)
}

/// Only what the root reaches, numbered as it is left; each Text with letters of its own; labels by number.
pub fn tidy(table: &Table) -> Table {
    fn walk(table: &Table, n: usize, numbers: &mut Vec<Option<u32>>, tidied: &mut Table) -> u32 {
        if let Some(number) = numbers[n] {
            return number;
        }
        let mut node = table.words[4 * n..4 * n + 4].to_vec();
        let (children, _) = shape(node[0]).expect("a valid table");
        for word in 1..1 + children {
            node[word] = walk(table, node[word] as usize, numbers, tidied);
        }
        let number = match node[0] {
            TEXT if node[2] > 0 => {
                let start = tidied.text.len();
                let bytes: Vec<u8> = (start..start + node[2] as usize).map(|i| b'a' + (i % 26) as u8).collect();
                tidied.push_text(&bytes, node[2])
            }
            TEXT => tidied.push(TEXT, 0, 0, 0),
            ANNOTATED => tidied.push(ANNOTATED, node[1], tidied.nodes() as u32, 0),
            kind => tidied.push(kind, node[1], node[2], node[3]),
        };
        numbers[n] = Some(number);
        number
    }
    let mut tidied = Table::default();
    walk(table, table.nodes() - 1, &mut vec![None; table.nodes()], &mut tidied);
    tidied
}
