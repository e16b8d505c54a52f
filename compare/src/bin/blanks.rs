//! blanks [rounds=N]: what a newline's blanks cost. 60 rows of one character, each behind a Hardline, at indentations from 0 to 1,000; and a
//! sheet of 200 rows at indentations that step from 0 to 90 and back. Prints ns a row (less a call with step limit 0, which only clears
//! and validates) and ns of a whole call. Run it on two archives (PURSEGABLE_ARCHIVE) to compare them.

use compare::calls::Call;
use compare::model::kind::*;
use compare::tables::Table;

const ROWS: u32 = 60;

/// Rows of one character, each behind a Hardline, at the indentations told, one join after another.
fn rows(indents: impl Iterator<Item = u32>) -> Table {
    let mut table = Table::default();
    let row = table.push_text(b"x", 1);
    let end = table.push(HARDLINE, 0, 0, 0);
    let both = table.push(APPEND, end, row, 0);
    let mut all = row;
    for indent in indents {
        let nested = table.push(NEST, both, indent, 0);
        all = table.push(APPEND, all, nested, 0);
    }
    table
}

#[cfg(archive)]
fn time(call: &Call, limit: u32, rounds: usize) -> f64 {
    use compare::archive::{Export, Lent};
    use std::hint::black_box;
    use std::time::Instant;
    let mut lent = Lent::sized(call);
    let mut least = f64::MAX;
    for _ in 0..rounds {
        let start = Instant::now();
        for _ in 0..20 {
            black_box(lent.call(Export::Words, black_box(&call.table.words), &call.table.text, call.width, limit));
        }
        least = least.min(start.elapsed().as_nanos() as f64 / 20.0);
    }
    least
}

#[cfg(archive)]
fn main() {
    let rounds = std::env::args().nth(1).and_then(|a| a.strip_prefix("rounds=").and_then(|n| n.parse().ok())).unwrap_or(2000);
    let sheet = (0..200).map(|row| if row / 10 % 2 == 0 { row % 10 * 10 } else { 90 - row % 10 * 10 });
    let loads = [0, 1, 8, 40, 100, 1000].map(|n| (format!("{n} blanks"), rows((0..ROWS).map(|_| n)), f64::from(ROWS)));
    println!("| load | ns a row | ns a whole call |\n|---|---|---|");
    for (name, table, count) in loads.into_iter().chain([("200 rows, 0 to 90 blanks".to_string(), rows(sheet), 200.0)]) {
        let call = Call::roomy(table, 2000);
        let run = call.run();
        assert_eq!(run.report.answer, 0, "{name}");
        assert_eq!(
            compare::archive::differs(
                compare::archive::Export::Words,
                &call,
                &mut compare::archive::Lent::default(),
                &run.report
            ),
            None,
            "{name}"
        );
        let whole = time(&call, call.limit, rounds);
        let before = time(&call, 0, rounds);
        println!("| {name} | {:.1} | {whole:.0} |", (whole - before) / count);
    }
}

#[cfg(not(archive))]
fn main() {
    let _ = rows(0..ROWS);
    println!("our archive is not at hand (PURSEGABLE_ARCHIVE), so nothing is timed");
}
