//! Lent buffers, without the feature `alloc` too: building and laying out, nodes of elsewhere, long lists, and counts that are wrong.
#![allow(clippy::large_stack_arrays)] // nothing allocates here

use pursegable::sizes::{MOST_NODES, WORK_WORDS};
use pursegable::{Draft, Event, Mark, Node, Piece, Refusal, Refused, Strip};

#[test]
fn built_and_laid() -> Result<(), Refused> {
    let (mut table, mut text) = ([7; 64], [7; 16]);
    let (mut out, mut events, mut work) = ([7; 32], [Event::default(); 2], [7; WORK_WORDS]);
    let draft = Draft::lent(&mut table, &mut text);
    let row = draft.append("! ", draft.annotate(draft.concat([draft.text("Dis"), draft.line(), draft.text("neu")]), 3))?;
    let mut strip = Strip::lent(&mut out, &mut events, &mut work);
    let laid = strip.layout(&draft, row, 42, 1000)?;
    assert_eq!((laid.text(), laid.bytes.len()), ("! Dis\nneu", 9));
    let mut events = laid.events();
    assert_eq!(events.next_back().map(|event| (event.offset(), event.mark(), event.label())), Some((9, Mark::Close, 3)));
    assert_eq!((events.len(), events.next().map(Event::offset)), (1, Some(2)));
    assert!(laid.pieces().eq([Piece::Text("! "), Piece::Open(3), Piece::Text("Dis\nneu"), Piece::Close(3)]));
    assert!(out[9..].iter().all(|byte| *byte == 0) && work.iter().all(|word| *word == 0));
    Ok(())
}

/// A draft tells a node that it hasn't, and counts that can't be.
#[test]
fn no_such_node() {
    let (mut table, mut text) = ([0; 8], [0; 8]);
    let mut draft = Draft::lent(&mut table, &mut text);
    assert_eq!(draft.parts(Node::from_number(0)), Err(Refusal::BadOperand));
    let nil = draft.nil().unwrap();
    assert_eq!(draft.group(Node::from_number(1)), Err(Refusal::BadOperand));
    assert_eq!(draft.parts(Node::from_number(u32::MAX)), Err(Refusal::BadOperand));
    assert_eq!(draft.parts(nil), Ok((&[0; 4][..], &[][..])));
    let (mut out, mut events, mut work) = ([0; 1], [Event::default(); 1], [0; WORK_WORDS]);
    let mut strip = Strip::lent(&mut out, &mut events, &mut work);
    let refused = strip.sheet(&draft, Node::from_number(1)).unwrap_err();
    assert_eq!((refused.why, refused.place, refused.steps), (Refusal::BadOperand, None, 0));

    for (nodes, bytes) in [(3, 0), (0, 9), (usize::MAX, 0), (0, usize::MAX)] {
        let mut draft = Draft::resumed(&mut table, &mut text, nodes, bytes);
        assert_eq!(draft.nil(), Err(Refusal::BadSize));
        assert!(draft.parts(Node::from_number(2)).is_err());
    }
}

/// A refusal adds nothing, and what is lent past the counts stays as it was.
#[test]
fn refusals_change_nothing() {
    let (mut table, mut text) = ([9; 16], [9; 4]);
    let draft = Draft::lent(&mut table, &mut text);
    let note = draft.text("abc").unwrap();
    let (nodes, bytes) = (draft.nodes(), draft.bytes());
    assert_eq!(draft.text("de"), Err(Refusal::NoText));
    assert_eq!(draft.softline(), Err(Refusal::NoNodes));
    assert_eq!(draft.concat([note; 5]), Err(Refusal::NoNodes));
    assert_eq!(draft.nest(note, 1001), Err(Refusal::BadChild));
    assert_eq!(draft.text_columns("é", 3), Err(Refusal::BadText));
    assert_eq!((draft.nodes(), draft.bytes()), (nodes, bytes));
    assert_eq!((&table[4..], &text[3..]), (&[9; 12][..], &[9][..]));
}

/// Lists longer than a table has nodes are joined all the same, if what they join fits.
#[test]
fn long_lists() -> Result<(), Refused> {
    let (mut table, mut text) = ([0; 4 * MOST_NODES], [0; 16]);
    let draft = Draft::lent(&mut table, &mut text);
    let (nil, x, comma) = (draft.nil()?, draft.text("x")?, draft.text(",")?);
    let mut nodes = [nil; 2 * MOST_NODES + 3];
    (nodes[0], nodes[MOST_NODES], nodes[2 * MOST_NODES + 2]) = (x, comma, x);
    let whole = draft.concat(nodes)?;
    let spread = draft.intersperse(nodes, nil)?;
    let (mut out, mut work) = ([0; 8], [0; WORK_WORDS]);
    let mut strip = Strip::lent(&mut out, &mut [], &mut work);
    assert_eq!(strip.sheet(&draft, whole)?.text(), "x,x");
    assert_eq!(strip.sheet(&draft, spread)?.text(), "x,x");
    assert_eq!(draft.concat([x; 2 * MOST_NODES]), Err(Refusal::NoNodes));
    Ok(())
}

/// Columns: a character each, unless stated; with bytes of 128 and more any number up to the bytes.
#[test]
fn columns() -> Result<(), Refused> {
    let (mut table, mut text) = ([0; 256], [0; 64]);
    let draft = Draft::lent(&mut table, &mut text);
    let (mut out, mut work) = ([0; 32], [0; WORK_WORDS]);
    let mut strip = Strip::lent(&mut out, &mut [], &mut work);
    for (columns, fits) in [(0, 1), (2, 3), (4, 5), (6, 7)] {
        let two = draft.text_columns("éé\u{301}", columns)?;
        let row = draft.group(draft.concat([Ok(two), draft.line_(), draft.text("x")]))?;
        assert_eq!(strip.layout(&draft, row, fits, 1000)?.text(), "éé\u{301}x");
        assert_eq!(strip.layout(&draft, row, fits - 1, 1000)?.text(), "éé\u{301}\nx");
    }
    assert_eq!(draft.text_columns("éé\u{301}", 7), Err(Refusal::BadText));
    assert_eq!(draft.text_columns("ab", 1), Err(Refusal::BadText));
    Ok(())
}

/// A table that doesn't end with the root is laid out by what it ends with: zeros are a Nil.
#[test]
fn the_root_is_the_last_node() -> Result<(), Refused> {
    let (mut table, mut text) = ([0; 4 * MOST_NODES], [0; 8]);
    let draft = Draft::lent(&mut table, &mut text);
    draft.text("Dis")?;
    let (mut out, mut work) = ([0; 8], [0; WORK_WORDS]);
    assert_eq!(pursegable::sheet(&table, &text, &mut out, &mut [], &mut work)?.text(), "");
    assert_eq!(pursegable::sheet(&table[..4], &text, &mut out, &mut [], &mut work)?.text(), "Dis");
    Ok(())
}
