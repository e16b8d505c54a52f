//! Header, wrapper and CHANGELOG say the same: the version, the sizes, the answers with their words, and every export.

use pursegable::{Refusal, sizes};

const HEADER: &str = include_str!("../../c/pursegable.h");
const EXPORTS: &str = include_str!("../src/raw/export.rs");
const CHANGELOG: &str = include_str!("../../CHANGELOG.md");

/// What a name is defined as, by `#define` or in an `enum`.
fn defined(name: &str) -> &'static str {
    let name = format!("PURSEGABLE_{name}");
    let value = |line: &'static str| {
        let line = line.trim().strip_prefix("#define ").unwrap_or(line.trim());
        let rest = line.strip_prefix(name.as_str())?.strip_prefix([' '])?;
        Some(rest.trim_start_matches("= ").split([' ', ',']).next().unwrap_or(rest))
    };
    HEADER.lines().find_map(value).unwrap_or_else(|| panic!("the header has no {name}"))
}

fn number(name: &str) -> usize {
    defined(name).parse().unwrap_or_else(|_| panic!("{name} is no number"))
}

#[test]
fn version() {
    let version = env!("CARGO_PKG_VERSION");
    assert_eq!(defined("VERSION").trim_matches('"'), version);
    let parts = ["MAJOR", "MINOR", "PATCH"].map(|part| defined(&format!("VERSION_{part}")));
    assert_eq!(parts.join("."), version);
    let newest = CHANGELOG.lines().find_map(|line| line.strip_prefix("## ")).expect("a version in the CHANGELOG");
    assert_eq!(newest.split(' ').next(), Some(version));
}

#[test]
fn sizes_agree() {
    let words = [
        ("NODE_WORDS", sizes::NODE_WORDS),
        ("MOST_NODES", sizes::MOST_NODES),
        ("MOST_TABLE_WORDS", sizes::MOST_TABLE_WORDS),
        ("MOST_TEXT_BYTES", sizes::MOST_TEXT_BYTES),
        ("MOST_OUT_BYTES", sizes::MOST_OUT_BYTES),
        ("MOST_EVENTS", sizes::MOST_EVENTS),
        ("WORK_WORDS", sizes::WORK_WORDS),
        ("MOST_WIDTH", sizes::MOST_WIDTH as usize),
        ("MOST_STEPS", sizes::MOST_STEPS as usize),
        ("MOST_AMOUNT", sizes::MOST_AMOUNT as usize),
        ("MOST_AFFIXES", sizes::MOST_AFFIXES),
        ("SHEET_WIDTH", sizes::SHEET_WIDTH as usize),
        ("LABEL_WIDTH", sizes::LABEL_WIDTH as usize),
        ("DEFAULT_STEPS", sizes::DEFAULT_STEPS as usize),
        ("EVENT_WORDS", sizes::EVENT_WORDS),
        ("REPORT_WORDS", sizes::REPORT_WORDS),
        ("COUNTS_WORDS", sizes::COUNTS_WORDS),
    ];
    for (name, size) in words {
        assert_eq!(number(name), size, "{name}");
    }
}

/// The cases of the header's function that says an answer in words: a name and the words.
fn answers() -> Vec<(&'static str, &'static str)> {
    let body =
        HEADER.split("switch (answer) {").nth(1).and_then(|rest| rest.split("default:").next()).expect("the answers in words");
    let case = |case: &'static str| {
        let (name, rest) = case.trim_start().strip_prefix("PURSEGABLE_")?.split_once(':')?;
        Some((name, rest.split('"').nth(1)?))
    };
    body.split("case ").filter_map(case).collect()
}

/// A name of the header, `NO_STEPS`, as the case of an enum is called, `NoSteps`.
fn as_case(name: &str) -> String {
    name.split('_').map(|word| word[..1].to_owned() + &word[1..].to_ascii_lowercase()).collect()
}

#[test]
fn answers_agree() {
    let answers = answers();
    assert_eq!((answers[0], number("OK"), Refusal::from_number(0)), (("OK", "done"), 0, None));
    for (name, words) in &answers[1..] {
        let number = u32::try_from(number(name)).unwrap();
        let refusal = Refusal::from_number(number).unwrap();
        assert_eq!((refusal.number(), format!("{refusal:?}")), (number, as_case(name)));
        assert_eq!(refusal.to_string(), format!("{words} ({number})"), "{name}");
    }
    let named = (1..100).filter_map(Refusal::from_number).filter(|refusal| !matches!(refusal, Refusal::Other(_)));
    assert_eq!(named.count(), answers.len() - 1, "each case is an answer of the header");
}

/// Every function of the header is declared, with as many parameters, and nothing else is.
#[test]
fn exports_agree() {
    let functions = |text: &'static str, before: &str| {
        let mut all: Vec<(&str, usize)> = text
            .split(before)
            .skip(1)
            .filter_map(|rest| rest.split_once('('))
            .filter(|(name, _)| name.chars().all(|c| c.is_ascii_lowercase() || c == '_'))
            .map(|(name, rest)| (name, rest.split(')').next().unwrap().split(',').filter(|p| !p.trim().is_empty()).count()))
            .collect();
        all.sort_unstable();
        all
    };
    let header = functions(HEADER, "\nuint32_t pursegable_");
    assert!(header.len() >= 9);
    assert_eq!(header, functions(EXPORTS, "pub fn pursegable_"));
}
