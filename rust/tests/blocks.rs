//! The layouts of blocks, built as a Rust caller builds them; tests/cases.txt has the refusals.

use pursegable::{Draft, Refusal, Refused};

/// The body `ef` in parentheses, under `ab` and `cd`.
#[test]
fn four_layouts() -> Result<(), Refused> {
    let draft = Draft::new();
    let body = draft.append(draft.line_(), "ef")?;
    let block = draft
        .block(body)
        .nested("ab", draft.nil())
        .nested(draft.append(draft.line(), "cd"), draft.nil())
        .nested(draft.append(draft.line(), "("), draft.append(draft.line_(), ")"))
        .format(2)?;
    let one_line = "ab cd (ef)";
    let body_below = "ab cd (\n  ef\n)";
    let two_before = "ab cd\n  (\n    ef\n  )";
    let one_before = "ab\n  cd\n    (\n      ef\n    )";
    for (width, want) in [(10, one_line), (9, body_below), (6, two_before), (5, one_before)] {
        assert_eq!(draft.lay(block, width)?, want, "width {width}");
    }
    Ok(())
}

/// The second affix is nested if its flag is set; the first one's prefix is always on the first line.
#[test]
fn flags() -> Result<(), Refused> {
    let draft = Draft::new();
    let cd = draft.append(draft.hardline(), "cd")?;
    let nested = draft.block(cd).affix("ab", "ab").nested(cd, "ab").format(2)?;
    let plain = draft.block(cd).nested("ab", "ab").affix(cd, "ab").format(2)?;
    assert_eq!(draft.lay(nested, 42)?, "ab\n  cd\n    cdabab");
    assert_eq!(draft.lay(plain, 42)?, "ab\ncd\n  cdabab");
    Ok(())
}

/// Suffixes come in the order of the list: those of the affixes below the first line, then those of the affixes on it.
#[test]
fn suffixes() -> Result<(), Refused> {
    let draft = Draft::new();
    let below = |text| draft.append(draft.line(), text);
    let block = draft.block("x").affix("a", "1").affix(below("b"), "2").affix(below("c"), "3").format(0)?;
    for (width, want) in [(9, "a b cx123"), (5, "a b\ncx312"), (4, "a\nb\ncx231")] {
        assert_eq!(draft.lay(block, width)?, want, "width {width}");
    }
    Ok(())
}

/// Each refusal comes out of the builder, an operand's first of all.
#[test]
fn refusals() -> Result<(), Refused> {
    let draft = Draft::new();
    let note = draft.text("x")?;
    let nodes = draft.nodes();
    assert_eq!(draft.block(Err(Refusal::NoText)).affix(note, note).format(2000), Err(Refusal::NoText));
    assert_eq!(
        draft.block(note).affix(note, Err(Refusal::NoNodes)).affix(Err(Refusal::NoText), note).format(0),
        Err(Refusal::NoNodes)
    );
    assert_eq!(draft.block(note).format(1001), Err(Refusal::BadChild));
    assert_eq!(draft.block(note).format(i32::MIN), Err(Refusal::BadChild));
    assert_eq!(draft.block(note).format(-1000), Ok(note));
    let affixes = |count: usize| (0..count).fold(draft.block(note), |block, _| block.affix(note, note));
    assert_eq!(affixes(9).format(0), Err(Refusal::BadSize));
    assert_eq!(affixes(100).format(2000), Err(Refusal::BadSize));
    assert_eq!(draft.nodes(), nodes);
    assert!(affixes(8).format(0).is_ok());
    Ok(())
}
