//! Calls in several threads at once, each on buffers of its own, and over one table that all of them read.

use pursegable::{Draft, Refused, Strip};
use std::thread;

const THREADS: u32 = 8;
const ROUNDS: u32 = 200;

/// A row of so many notes, each in a mark, broken where it doesn't fit.
fn notes(draft: &Draft, count: u32) -> Result<pursegable::Node, Refused> {
    let note = draft.union(draft.annotate("Gis-Dis", 4), "Gis")?;
    let line = draft.append(",", draft.softline())?;
    Ok(draft.block(draft.intersperse((0..count).map(|_| note), line)).affix("Out: ", draft.hardline()).format(4)?)
}

/// What one thread does; what it printed and counted, all of it.
fn work(thread: u32) -> Result<Vec<(String, usize, u32)>, Refused> {
    let mut strip = Strip::with_room(4096, 256);
    let mut all = Vec::new();
    for round in 0..ROUNDS {
        let draft = Draft::with_room(256, 256);
        let row = notes(&draft, 1 + (thread + round) % 30)?;
        let laid = strip.layout(&draft, row, 10 + round % 40, 1_000_000)?;
        all.push((laid.text().to_owned(), laid.events().len(), laid.steps));
    }
    Ok(all)
}

#[test]
fn different_buffers_at_once() -> Result<(), Refused> {
    let one_by_one = (0..THREADS).map(work).collect::<Result<Vec<_>, _>>()?;
    let at_once: Vec<_> = (0..THREADS).map(|thread| thread::spawn(move || work(thread))).collect();
    for (handle, want) in at_once.into_iter().zip(one_by_one) {
        assert_eq!(handle.join().unwrap()?, want);
    }
    Ok(())
}

/// A draft and a strip go from one thread to another.
#[test]
fn handed_on() -> Result<(), Refused> {
    let (draft, mut strip) = (Draft::new(), Strip::new());
    let row = notes(&draft, 3)?;
    let want = draft.lay(row, 42)?;
    thread::spawn(move || assert_eq!(strip.layout(&draft, row, 42, 1_000_000).unwrap().text(), want)).join().unwrap();
    Ok(())
}

#[test]
fn one_table_read_by_all() -> Result<(), Refused> {
    let mut draft = Draft::new();
    let row = notes(&draft, 30)?;
    let want = draft.lay(row, 20)?;
    let (table, text) = draft.parts(row)?;
    thread::scope(|scope| {
        for _ in 0..THREADS {
            scope.spawn(|| {
                let (mut out, mut events, mut work) = (vec![0; 4096], vec![pursegable::Event::default(); 256], vec![0; 16_384]);
                for _ in 0..ROUNDS {
                    let laid = pursegable::layout(table, text, 20, 1_000_000, &mut out, &mut events, &mut work).unwrap();
                    assert_eq!(laid.text(), want);
                }
            });
        }
    });
    Ok(())
}
