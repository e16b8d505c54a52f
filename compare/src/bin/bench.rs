//! bench [rounds=N]: whole calls of our library beside the crate's `render` of the already built document, in one process,
//! in turns. Prints medians with quartiles and the least, the ratio, ns a step and, for ours, the parts: clearing (a call refused with 1),
//! validation (a call with step limit 0, less clearing), layout (the rest). docs/PERFORMANCE.md says what was measured.

use compare::calls::{Call, WORK};
use compare::loads::{growing, loads, Load};
use compare::model::Run;
use std::hint::black_box;
use std::time::Instant;

fn main() {
    let rounds = std::env::args().nth(1).and_then(|a| a.strip_prefix("rounds=").and_then(|n| n.parse().ok())).unwrap_or(400);
    if !cfg!(pretty) {
        println!("crate pretty is not at hand (its source's folder: PRETTY_SOURCE), so it is not timed");
    }
    if !cfg!(archive) {
        println!("our archive is not at hand (PURSEGABLE_ARCHIVE), so it is not timed");
    }
    println!("times in ns: median (quartiles) of {rounds} rounds in turns; lent: {WORK} words of work, 5 of report");
    let mut rows: Vec<String> = loads().iter().filter_map(|load| time(load, rounds)).collect();
    println!("\ngrowing");
    rows.extend(growing().iter().filter_map(|load| time(load, rounds / 2)));
    if !rows.is_empty() {
        println!("\nfor docs/PERFORMANCE.md: medians, and the ratio of the least\n\n{HEAD}\n{}", rows.join("\n"));
    }
}

const HEAD: &str = "| load | nodes, steps, bytes | crate | ours | ratio (of the least) | clearing, validation, layout | layout alone | ns a step |
|---|---|---|---|---|---|---|---|";

/// Repeats of one round's call, so that it lasts some 50 µs.
fn repeats(mut call: impl FnMut()) -> usize {
    let start = Instant::now();
    (0..3).for_each(|_| call());
    let once = start.elapsed().as_nanos() as usize / 3;
    (50_000 / once.max(1)).clamp(1, 500)
}

/// What a call took in each round.
struct Timed(Vec<f64>);

impl Timed {
    fn quartile(&self, quarter: usize) -> f64 {
        let mut sorted = self.0.clone();
        sorted.sort_by(f64::total_cmp);
        sorted[(sorted.len() - 1) * quarter / 4]
    }

    fn median(&self) -> f64 {
        self.quartile(2)
    }

    fn shown(&self) -> String {
        format!("{:.0} ({:.0} to {:.0}, least {:.0})", self.median(), self.quartile(1), self.quartile(3), self.quartile(0))
    }
}

/// Times each of the calls in turn, round by round.
fn in_turns(rounds: usize, calls: &mut [Box<dyn FnMut() + '_>]) -> Vec<Timed> {
    let repeats: Vec<usize> = calls.iter_mut().map(repeats).collect();
    let mut timed: Vec<Timed> = calls.iter().map(|_| Timed(Vec::new())).collect();
    for _ in 0..rounds {
        for ((call, &repeats), timed) in calls.iter_mut().zip(&repeats).zip(&mut timed) {
            let start = Instant::now();
            (0..repeats).for_each(|_| call());
            timed.0.push(start.elapsed().as_nanos() as f64 / repeats as f64);
        }
    }
    timed
}

/// Tells how long a load takes on each side; a row of the table where both are at hand.
fn time(load: &Load, rounds: usize) -> Option<String> {
    let mut call = Call::roomy(load.table.clone(), load.width);
    call.room = load.room;
    call.slots = load.slots;
    let run = call.run();
    assert_eq!(run.report.answer, 0, "{}", load.name);
    let steps = run.report.steps;
    println!(
        "{}: {} nodes, {} steps, {} bytes of {}, {} events of {}",
        load.name,
        load.table.nodes(),
        steps,
        run.report.bytes.len(),
        load.room,
        run.report.events.len(),
        load.slots
    );
    each_side(load, &call, &run, rounds, f64::from(steps))
}

fn each_side(load: &Load, call: &Call, run: &Run, rounds: usize, steps: f64) -> Option<String> {
    #[cfg(pretty)]
    let arena = pretty::Arena::new();
    #[cfg(pretty)]
    let document = compare::beside::document(&arena, &load.table.words, &load.table.text);
    let mut names: Vec<&str> = Vec::new();
    let mut calls: Vec<Box<dyn FnMut() + '_>> = Vec::new();
    #[cfg(pretty)]
    {
        assert!(!run.clean || compare::beside::write(&document, load.width).bytes == run.report.bytes, "{}", load.name);
        let mut out: Vec<u8> = Vec::with_capacity(load.room);
        names.push("crate, render");
        calls.push(Box::new(move || {
            out.clear();
            black_box(&document).render(load.width as usize, &mut out).expect("rendered");
            black_box(&out);
        }));
        if !run.report.events.is_empty() {
            names.push("crate, events collected");
            calls.push(Box::new(move || drop(black_box(compare::beside::write(black_box(&document), load.width)))));
        }
    }
    #[cfg(archive)]
    {
        use compare::archive::{differs, Export, Lent};
        for (name, export, width, limit) in [
            ("ours, whole call", Export::Words, call.width, call.limit),
            ("ours, step limit 0", Export::Words, call.width, 0),
            ("ours, refused with 1", Export::Words, 65_536, call.limit),
            ("ours, events as records", Export::Layout, call.width, call.limit),
        ] {
            assert_eq!(differs(export, call, &mut Lent::default(), &run.report), None, "{}", load.name);
            let mut lent = Lent::sized(call);
            names.push(name);
            calls.push(Box::new(move || {
                black_box(lent.call(export, black_box(&call.table.words), &call.table.text, width, limit));
            }));
        }
    }
    let mut own: Vec<u32> = vec![0; (load.room + 12 * load.slots) / 4 + WORK];
    names.push("reading and clearing as much");
    calls.push(Box::new(move || {
        let dirty = black_box(&own).iter().fold(0, |all, word| all | word);
        black_box(dirty);
        black_box(&mut own).fill(0);
    }));
    let mut own: Vec<u32> = vec![0; (load.room + 12 * load.slots) / 4 + WORK];
    names.push("clearing as much");
    calls.push(Box::new(move || black_box(&mut own).fill(0)));
    let _ = (call, run);
    let timed = in_turns(rounds, &mut calls);
    for (name, timed) in names.iter().zip(&timed) {
        println!("  {name}: {}, {:.2} a step", timed.shown(), timed.median() / steps);
    }
    let of = |name: &str| names.iter().position(|n| *n == name).map(|at| &timed[at]);
    let (whole, unlaid, refused) = (of("ours, whole call")?, of("ours, step limit 0")?, of("ours, refused with 1")?);
    let (clearing, validation, layout) =
        (refused.median(), unlaid.median() - refused.median(), whole.median() - unlaid.median());
    println!("  clearing {clearing:.0}, validation {validation:.0}, layout {layout:.0}");
    println!("  to reading and clearing as much: {:.2}", whole.median() / of("reading and clearing as much")?.median());
    let theirs = of("crate, render")?;
    Some(format!(
        "| {} | {}, {}, {} | {:.0} | {:.0} | {:.2} ({:.2}) | {clearing:.0}, {validation:.0}, {layout:.0} | {:.2} | {:.2}, {:.2} |",
        load.name,
        load.table.nodes(),
        steps,
        run.report.bytes.len(),
        theirs.median(),
        whole.median(),
        whole.median() / theirs.median(),
        whole.quartile(0) / theirs.quartile(0),
        layout / theirs.median(),
        theirs.median() / steps,
        whole.median() / steps,
    ))
}

#[cfg(pretty)]
extern crate pretty;
