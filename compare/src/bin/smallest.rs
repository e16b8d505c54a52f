//! smallest [nodes=K] [tries=N]: searches for the smallest tables on which the crate does something else than document 01
//! says, one for each kind of difference: every table of 1 to K nodes at the widths 0 to 3, then N random ones (seed 1),
//! and two made by hand, each made smaller as long as it still shows its kind. docs/DIFFERENCES.md tells them one by one.

#[cfg(not(pretty))]
fn main() {
    println!("crate pretty is not at hand (its source's folder: PRETTY_SOURCE), so there is nothing to search");
    std::process::exit(3);
}

#[cfg(pretty)]
fn main() {
    let (mut nodes, mut tries) = (6, 3_000_000);
    for argument in std::env::args().skip(1) {
        match argument.split_once('=').and_then(|(name, n)| Some((name, n.parse().ok()?))) {
            Some(("nodes", n)) => nodes = n,
            Some(("tries", n)) => tries = n,
            _ => {
                eprintln!("smallest: what is {argument}? Known: nodes=K tries=N");
                std::process::exit(2);
            }
        }
    }
    search::run(nodes, tries);
}

#[cfg(pretty)]
mod search {
    use compare::beside::lay_out;
    use compare::calls::Call;
    use compare::differences::{self, kinds, smaller, tidy};
    use compare::model::{kind::*, Event};
    use compare::tables::{every_table, random_table, shown, Parts, Random, Table};
    use std::collections::BTreeMap;

    type Found = BTreeMap<&'static str, (Table, u32)>;

    pub fn run(nodes: usize, tries: usize) {
        let mut found = Found::new();
        (1..=nodes).for_each(|nodes| exhaust(&mut found, nodes));
        let mut random = Random(1);
        let random = (0..tries).map(|_| {
            let nodes = 4 + random.below(14);
            (tidy(&random_table(&mut random, nodes)), random.below(5) as u32)
        });
        for (table, width) in by_hand().into_iter().chain(random) {
            for kind in shows(&table, width) {
                let least = shrink(&table, width, kind);
                if found.get(kind).is_none_or(|best| weight(&least) < weight(best)) {
                    found.insert(kind, least);
                }
            }
        }
        for (kind, (table, width)) in &found {
            tell(kind, table, *width);
        }
    }

    /// A group in a second arm goes by what waits, which the crate has lost: (Union(ab + Hardline, Group(FlatAlt(c, d))) + e),
    /// and the same with Hardline, e and fg after it.
    fn by_hand() -> [(Table, u32); 2] {
        let mut table = Table::default();
        table.push_text(b"ab", 2);
        table.push(HARDLINE, 0, 0, 0);
        table.push(APPEND, 0, 1, 0);
        table.push_text(b"c", 1);
        table.push_text(b"d", 1);
        table.push(FLAT_ALT, 3, 4, 0);
        table.push(GROUP, 5, 0, 0);
        let trial = table.push(UNION, 2, 6, 0);
        let mut longer = table.clone();
        table.push_text(b"e", 1);
        table.push(APPEND, trial, 8, 0);
        longer.push(APPEND, trial, 1, 0);
        longer.push_text(b"e", 1);
        longer.push(APPEND, 8, 9, 0);
        longer.push_text(b"fg", 2);
        longer.push(APPEND, 10, 11, 0);
        [(table, 1), (longer, 1)]
    }

    fn weight((table, width): &(Table, u32)) -> ((usize, u32), u32) {
        (differences::weight(table), *width)
    }

    fn shows(table: &Table, width: u32) -> Vec<&'static str> {
        let run = Call::roomy(table.clone(), width).run();
        if run.report.answer > 6 || table.unfolded() > 300 {
            return Vec::new();
        }
        let wrote = lay_out(&table.words, &table.text, width);
        let kinds = kinds(table, &run.report, &wrote);
        for kind in &kinds {
            assert!(kind.starts_with("fails: ") || !run.marks_clean && (kind.starts_with("marks: ") || !run.clean), "{kind}");
        }
        kinds
    }

    fn exhaust(found: &mut Found, nodes: usize) {
        let parts = Parts {
            texts: vec![0, 1],
            beyond: false,
            leaves: vec![NIL, HARDLINE, FAIL],
            single: vec![GROUP, ANNOTATED, ALIGN],
            nests: vec![(1, 0), (1, 1)],
            pairs: vec![APPEND, FLAT_ALT, UNION],
        };
        let mut tables = 0u64;
        let mut now = Found::new();
        every_table(&parts, nodes, &mut |table| {
            tables += 1;
            for width in 0..=3 {
                for kind in shows(table, width) {
                    let this = (table.clone(), width);
                    if !found.contains_key(kind) && now.get(kind).is_none_or(|best| weight(&this) < weight(best)) {
                        now.insert(kind, this);
                    }
                }
            }
        });
        eprintln!("{nodes} nodes: {tables} tables");
        found.append(&mut now);
    }

    fn shrink(table: &Table, width: u32, kind: &str) -> (Table, u32) {
        let mut least = (table.clone(), width);
        'again: loop {
            for next in smaller(&least.0, least.1) {
                if weight(&next) < weight(&least) && shows(&next.0, next.1).contains(&kind) {
                    least = next;
                    continue 'again;
                }
            }
            return least;
        }
    }

    fn tell(kind: &str, table: &Table, width: u32) {
        let report = Call::roomy(table.clone(), width).run().report;
        let wrote = lay_out(&table.words, &table.text, width);
        println!("{kind}: {} nodes, {}, width {width}", table.nodes(), table.said());
        println!("  {} over `{}`", table.written(), shown(&table.text));
        println!("  01: answer {} `{}` {}", report.answer, shown(&report.bytes), events(&report.events));
        let ended = if wrote.failed { "fails after" } else { "writes" };
        println!("  crate: {ended} `{}` {}", shown(&wrote.bytes), events(&wrote.events));
    }

    fn events(events: &[Event]) -> String {
        let one = |e: &Event| format!("{} {} {}", if e.mark == 1 { "open" } else { "close" }, e.offset, e.label);
        events.iter().map(one).collect::<Vec<_>>().join(", ")
    }
}
