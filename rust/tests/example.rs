//! The README's example: a note and its remark with a softline between them, laid out at 12 columns.

use pursegable::{Draft, Node, Refused, Strip};

#[test]
fn example() -> Result<(), Refused> {
    let draft = Draft::new();
    let row = draft.concat([draft.text("Fis"), draft.softline(), draft.text("neu beledern")])?;
    assert_eq!(draft.lay(row, 12)?, "Fis\nneu beledern");
    Ok(())
}

/// The first two of document 01's marked cases: the same table as its own, and 13 steps.
#[test]
fn marked_cases() -> Result<(), Refused> {
    let mut draft = Draft::new();
    let table = draft.group(draft.append(draft.text("ab"), draft.append(draft.line(), "cd")))?;
    let (words, text) = draft.parts(table)?;
    assert_eq!(words, [6, 0, 2, 2, 5, 0, 0, 0, 6, 2, 1, 1, 3, 1, 2, 0, 6, 3, 2, 2, 1, 3, 4, 0, 1, 0, 5, 0, 2, 6, 0, 0]);
    assert_eq!(text, b"ab cd");
    let mut strip = Strip::new();
    for (width, want) in [(5, "ab cd"), (4, "ab\ncd")] {
        let laid = strip.layout(&draft, table, width, 1000)?;
        assert_eq!((laid.text(), laid.steps, laid.events().len()), (want, 13, 0));
    }
    let refused = strip.layout(&draft, table, 4, 12).unwrap_err();
    assert_eq!((refused.why.number(), refused.place.map(Node::number), refused.steps), (7, Some(4), 12));
    Ok(())
}
