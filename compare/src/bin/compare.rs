//! compare [random=N] [calls=N] [nodes=K] [seed=S]: layouts at random and all small ones, the model beside what is linked.
//!
//! random=N  layouts of random valid tables, with all the room: model, crate, archive
//! calls=N   calls of random tables, limits and rooms, often spoilt: model and archive, every buffer
//! nodes=K   every table of 1 to K nodes, at the widths 0 to 4: model, crate, archive
//! Each call is followed by one of `why` at one of its steps: model and archive, every buffer.
//!
//! Ends with status 1 if a clean run's bytes differ from the crate's, a marks-clean run's events do, or anything at all
//! differs from the archive.

use compare::calls::{wild_call, Call};
use compare::model::{Report, Run};
use compare::tables::{every_table, extreme_tables, random_size, random_table, random_width, Parts, Random};
use std::collections::BTreeMap;
use std::time::Instant;

/// Runs with more steps than this are left out beside the crate, which has no limit; so are runs that are not clean of
/// tables that unfold to more nodes, for there the crate may go on where 01 fails.
#[cfg(pretty)]
const MOST_STEPS: u32 = 100_000;

fn main() {
    let mut given: BTreeMap<String, u64> =
        [("random", 200_000), ("calls", 100_000), ("nodes", 4), ("seed", 1)].map(|(name, n)| (name.to_string(), n)).into();
    for argument in std::env::args().skip(1) {
        let known = argument.split_once('=').and_then(|(name, n)| Some((given.get_mut(name)?, n.parse().ok()?)));
        let Some((place, n)) = known else {
            eprintln!("compare: what is {argument}? Known: random=N calls=N nodes=K seed=S");
            std::process::exit(2);
        };
        *place = n;
    }
    if !cfg!(pretty) {
        println!("crate pretty is not at hand (its source's folder: PRETTY_SOURCE), so nothing is compared with it");
    }
    if !cfg!(archive) {
        println!("our archive is not at hand (PURSEGABLE_ARCHIVE), so nothing is compared with it");
    }
    let mut tally = Tally::default();
    let started = Instant::now();
    all_small(&mut tally, given["nodes"] as usize);
    extremes(&mut tally);
    random_layouts(&mut tally, given["seed"], given["random"]);
    random_calls(&mut tally, given["seed"], given["calls"]);
    tally.print();
    println!("{:.1} s", started.elapsed().as_secs_f64());
    if tally.wrong > 0 {
        std::process::exit(1);
    }
}

fn all_small(tally: &mut Tally, most: usize) {
    for nodes in 1..=most {
        let before = tally.layouts;
        every_table(&Parts::all(), nodes, &mut |table| {
            for width in 0..=4 {
                tally.layout(&Call::roomy(table.clone(), width));
            }
        });
        println!("every table of {nodes} nodes, at five widths: {} layouts", tally.layouts - before);
    }
}

fn extremes(tally: &mut Tally) {
    let before = tally.layouts;
    for table in extreme_tables() {
        for width in [0, 1, 2, 42, 1023, 1024, 65_535] {
            tally.layout(&Call::roomy(table.clone(), width));
        }
    }
    println!("tables of 1,024 nodes, at seven widths: {} layouts", tally.layouts - before);
}

fn random_layouts(tally: &mut Tally, seed: u64, count: u64) {
    let mut random = Random(seed);
    for _ in 0..count {
        let nodes = random_size(&mut random);
        let table = random_table(&mut random, nodes);
        let width = if random.one_in(10) { 42 } else { random_width(&mut random) };
        tally.layout(&Call::roomy(table, width));
    }
    println!("random tables, seed {seed}: {count} layouts");
}

fn random_calls(tally: &mut Tally, seed: u64, count: u64) {
    if !cfg!(archive) {
        return;
    }
    let mut random = Random(seed ^ 0xca11);
    for _ in 0..count {
        let call = wild_call(&mut random);
        let run = call.run();
        tally.beside_archive(&call, &run.report);
    }
    println!("random calls, seed {seed}: {count}");
}

/// What was compared, and what differed.
#[derive(Default)]
struct Tally {
    layouts: u64,
    waited: usize,
    compared: u64,
    left_out: u64,
    clean: u64,
    clean_failing: u64,
    marks_clean: u64,
    marks_clean_with_events: u64,
    unclean_other: u64,
    unmarked_other: u64,
    archive_calls: u64,
    /// the answers of `why`, and its reasons
    whys: BTreeMap<u32, u64>,
    reasons: BTreeMap<u32, u64>,
    answers: BTreeMap<u32, u64>,
    wrong: u64,
    #[cfg(archive)]
    lent: compare::archive::Lent,
}

impl Tally {
    /// A layout with all the room, beside the crate and the archive.
    fn layout(&mut self, call: &Call) {
        let run = call.run();
        self.layouts += 1;
        self.waited = self.waited.max(run.waited);
        self.beside_crate(call, &run);
        if cfg!(archive) {
            // with less room, for every byte lent is soiled before and looked at after
            let mut less = call.clone();
            less.room = call.room.min(run.report.bytes.len() + 100);
            less.slots = call.slots.min(run.report.events.len() + 10);
            let report = less.run().report;
            self.beside_archive(&less, &report);
        } else {
            self.answered(&run.report);
        }
    }

    fn answered(&mut self, report: &Report) {
        *self.answers.entry(report.answer).or_default() += 1;
    }

    #[cfg(not(pretty))]
    fn beside_crate(&mut self, _: &Call, _: &Run) {}

    #[cfg(pretty)]
    fn beside_crate(&mut self, call: &Call, run: &Run) {
        let report = &run.report;
        let ended = matches!(report.answer, 0 | 6);
        if !ended || report.steps > MOST_STEPS || !run.clean && call.table.unfolded() > u64::from(MOST_STEPS) {
            self.left_out += 1;
            return;
        }
        let wrote = compare::beside::lay_out(&call.table.words, &call.table.text, call.width);
        self.compared += 1;
        self.clean += u64::from(run.clean);
        self.clean_failing += u64::from(run.clean && report.answer == 6);
        self.marks_clean += u64::from(run.marks_clean);
        self.marks_clean_with_events += u64::from(run.marks_clean && !report.events.is_empty());
        let same = wrote.failed == (report.answer == 6) && (wrote.failed || wrote.bytes == report.bytes);
        let same_marks = same && (wrote.failed || wrote.events == report.events);
        if run.clean && !same || run.marks_clean && !same_marks {
            self.differs(call, &format!("the crate, {wrote:?}"), report);
        }
        self.unclean_other += u64::from(!run.clean && !same);
        self.unmarked_other += u64::from(!run.marks_clean && same && !same_marks);
    }

    #[cfg(not(archive))]
    fn beside_archive(&mut self, _: &Call, _: &Report) {}

    #[cfg(archive)]
    fn beside_archive(&mut self, call: &Call, report: &Report) {
        self.answered(report);
        // one of the exports after the other
        let exports = compare::archive::Export::for_call(call);
        let export = exports[self.archive_calls as usize % exports.len()];
        self.archive_calls += 1;
        if let Some(what) = compare::archive::differs(export, call, &mut self.lent, report) {
            self.differs(call, &format!("the archive, {what}"), report);
        }
        self.why_beside_archive(call, report);
    }

    /// Why, at one of the run's steps, at 0 or past its end; every seventh time with the step itself as limit.
    #[cfg(archive)]
    fn why_beside_archive(&mut self, call: &Call, report: &Report) {
        let step = (self.archive_calls * 7919 % (u64::from(report.steps) + 3)) as u32;
        let mut call = call.clone();
        if self.archive_calls % 7 == 0 && step <= call.limit {
            call.limit = step;
        }
        let wanted = compare::model::why(&call.given(), step);
        *self.whys.entry(wanted[0]).or_default() += 1;
        if wanted[0] == 0 {
            *self.reasons.entry(wanted[2]).or_default() += 1;
        }
        if let Some(what) = compare::archive::why_differs(&call, step, &mut self.lent, wanted) {
            self.differs(&call, &format!("the archive, {what}"), report);
        }
    }

    #[allow(dead_code)]
    fn differs(&mut self, call: &Call, from: &str, report: &Report) {
        self.wrong += 1;
        if self.wrong <= 10 {
            println!("DIFFERS from {from}");
            println!("  table {}", call.table.written());
            println!("  text {:?}", String::from_utf8_lossy(&call.table.text));
            println!("  width {} limit {} room {} slots {} work {}", call.width, call.limit, call.room, call.slots, call.work);
            println!("  model {report:?}");
        }
    }

    fn print(&self) {
        let answers: Vec<String> = self.answers.iter().map(|(answer, n)| format!("{answer}: {n}")).collect();
        println!("layouts {}, most entries waiting {}", self.layouts, self.waited);
        println!("answers {}", answers.join(", "));
        if cfg!(pretty) {
            println!("with the crate: compared {}, left out (steps) {}", self.compared, self.left_out);
            println!("  clean {} (of them failing {})", self.clean, self.clean_failing);
            println!("  marks clean {} (of them with events {})", self.marks_clean, self.marks_clean_with_events);
            println!("  not clean and other bytes or another answer: {}", self.unclean_other);
            println!("  marks not clean, same bytes and other events: {}", self.unmarked_other);
        }
        if cfg!(archive) {
            println!("with our archive: compared {}", self.archive_calls);
            let counted = |counts: &BTreeMap<u32, u64>| {
                counts.iter().map(|(n, times)| format!("{n}: {times}")).collect::<Vec<_>>().join(", ")
            };
            println!("why: answers {}; reasons {}", counted(&self.whys), counted(&self.reasons));
        }
        println!("DIFFERENT where they must not: {}", self.wrong);
    }
}
