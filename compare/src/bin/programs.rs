//! programs [count=N] [seed=S]: the same random program of constructor calls for document 01's constructors and for the
//! crate's: every node made is compared with the crate's document node by node, and by what both lay out at two widths.
//! Our library makes the same calls, and as many on any counts, lengths and operands: answer, counts, table and text.
//!
//! Ends with status 1 if a document has other nodes, a clean run's bytes differ, a marks-clean run's events do, or anything at
//! all differs from the archive.

use compare::calls::Call;
use compare::make::{Affix, Builder, Make};
use compare::model::kind::NIL;
use compare::programs::{random_program, with_operands};
use compare::tables::{random_width, Random, Table};
#[cfg(archive)]
use compare::{
    made::Lent,
    programs::{soiled_lent, uneven_lists, wild_lent, wild_make},
};
use std::collections::BTreeMap;
#[cfg(archive)]
use std::fmt::Debug;
use std::time::Instant;

/// Layouts with more steps than this are left out.
const MOST_STEPS: u32 = 100_000;

fn main() {
    let (count, seed) = arguments();
    if !cfg!(pretty) {
        println!("crate pretty is not at hand (its source's folder: PRETTY_SOURCE), so nothing is compared with it");
    }
    if !cfg!(archive) {
        println!("our archive is not at hand (PURSEGABLE_ARCHIVE), so nothing is compared with it");
    }
    let started = Instant::now();
    let mut random = Random(seed);
    let mut tally = Tally { lending: Random(seed ^ 0x1e4d), ..Tally::default() };
    for _ in 0..count {
        let length = 1 + random.below(20);
        let program = random_program(&mut random, length);
        tally.program(&program, [random_width(&mut random), random_width(&mut random)]);
    }
    println!("programs {count}, seed {seed}, calls {}", tally.calls);
    tally.tell();
    println!("{:.1} s", started.elapsed().as_secs_f64());
    if tally.wrong > 0 {
        std::process::exit(1);
    }
}

fn arguments() -> (u64, u64) {
    let (mut count, mut seed) = (20_000, 1);
    for argument in std::env::args().skip(1) {
        match argument.split_once('=').and_then(|(name, n)| Some((name, n.parse().ok()?))) {
            Some(("count", n)) => count = n,
            Some(("seed", n)) => seed = n,
            _ => {
                eprintln!("programs: what is {argument}? Known: count=N seed=S");
                std::process::exit(2);
            }
        }
    }
    (count, seed)
}

#[derive(Default)]
struct Tally {
    calls: u64,
    /// blocks by their number of affixes
    blocks: [u64; 9],
    /// those with more than one, all of whose prefixes are Nil nodes
    bare: u64,
    stopped: u64,
    nodes: u64,
    node_by_node: u64,
    most: usize,
    compared: u64,
    left_out: u64,
    clean: u64,
    marks_clean: u64,
    /// what is lent to our archive
    lending: Random,
    of_programs: u64,
    at_random: u64,
    answers: BTreeMap<u32, u64>,
    /// of them, those of blocks
    block_answers: BTreeMap<u32, u64>,
    uneven: u64,
    wrong: u64,
}

impl Tally {
    fn tell(&self) {
        println!("blocks of 0 to 8 affixes {:?}, all prefixes Nil {}", self.blocks, self.bare);
        println!("stopped for room {}, nodes in all {}, most {}", self.stopped, self.nodes, self.most);
        println!("documents compared node by node {}", self.node_by_node);
        println!("layouts compared {}, left out {}", self.compared, self.left_out);
        println!("  clean {}, marks clean {}", self.clean, self.marks_clean);
        if cfg!(archive) {
            println!("calls of our archive: of the programs {}, at random {}", self.of_programs, self.at_random);
            println!("  answers {:?}", self.answers);
            println!("  of blocks {:?}; of blocks with uneven lists, all 1: {}", self.block_answers, self.uneven);
        }
        println!("DIFFERENT where they must not: {}", self.wrong);
    }

    fn program(&mut self, program: &[Make], widths: [u32; 2]) {
        let mut builder = Builder::new(4096, 65_536);
        let mut nodes: Vec<u32> = Vec::new();
        for make in program {
            match builder.make(&with_operands(make, &|call| nodes[call as usize])) {
                Ok(node) => nodes.push(node),
                Err(_) => {
                    self.stopped += 1;
                    break;
                }
            }
            if let Make::Block(affixes, ..) = make {
                let nil = |affix: &Affix| builder.used.words[4 * nodes[affix.prefix as usize] as usize] == NIL;
                self.blocks[affixes.len()] += 1;
                self.bare += u64::from(affixes.len() > 1 && affixes.iter().all(nil));
            }
        }
        self.calls += nodes.len() as u64;
        self.nodes += builder.used.nodes() as u64;
        self.most = self.most.max(builder.used.nodes());
        self.beside_crate(&program[..nodes.len()], &nodes, &builder, widths);
        self.beside_archive(&program[..nodes.len()], &nodes, &builder);
    }

    #[cfg(not(archive))]
    fn beside_archive(&mut self, _: &[Make], _: &[u32], _: &Builder) {
        let _ = &self.lending;
    }

    /// The program's calls with a little more room than they need, or less; then calls on whatever is lent.
    #[cfg(archive)]
    fn beside_archive(&mut self, program: &[Make], nodes: &[u32], builder: &Builder) {
        let random = &mut self.lending;
        let (words, bytes) = (builder.used.words.len(), builder.used.text.len());
        let words = if random.one_in(6) { random.below(words + 1) } else { words + random.below(9) };
        let bytes = if random.one_in(6) { random.below(bytes + 1) } else { bytes + random.below(4) };
        let mut lent = soiled_lent(random, words, bytes);
        for make in program {
            self.of_programs += 1;
            self.called(&mut lent, &with_operands(make, &|call| nodes[call as usize]));
        }
        let mut lent = wild_lent(&mut self.lending);
        for _ in program {
            self.at_random += 1;
            let random = &mut self.lending;
            let present = lent.counts.first().map_or(0, |&n| n.min(2000) as usize);
            match random.below(80) {
                0 | 1 => {
                    let unknown = [*random.of(&[6, 19, 20, 1 << 31, u32::MAX]), 0, 0, 0];
                    self.refused(&mut lent, 2, &unknown, &|lent| lent.by_words(unknown));
                }
                2 => {
                    let lists = uneven_lists(random, present);
                    self.uneven += 1;
                    self.refused(&mut lent, 1, &lists, &|lent| lent.by_lists(&lists));
                }
                _ => {
                    let make = wild_make(random, present);
                    self.called(&mut lent, &make);
                }
            }
        }
    }

    /// One call of the archive beside the model.
    #[cfg(archive)]
    fn called(&mut self, lent: &mut Lent, make: &Make) {
        let mut wanted = lent.clone();
        let answer = wanted.by_model(make);
        let before = lent.clone();
        let ours = lent.by_archive(make);
        *self.answers.entry(answer).or_default() += 1;
        if matches!(make, Make::Block(..)) {
            *self.block_answers.entry(answer).or_default() += 1;
        }
        if ours != answer || *lent != wanted {
            self.wrong += 1;
            if self.wrong <= 5 {
                println!(
                    "DIFFERS from the archive, {make:?} on {before:?}\n  model {answer} {wanted:?}\n  archive {ours} {lent:?}"
                );
            }
            *lent = wanted;
        }
    }

    /// A call that no constructor of the model is: this answer, or 1 if there aren't three words of counts, and nothing changes.
    #[cfg(archive)]
    fn refused(&mut self, lent: &mut Lent, answer: u32, asked: &dyn Debug, call: &dyn Fn(&mut Lent) -> u32) {
        let before = lent.clone();
        let answer = if lent.counts.len() < 3 { 1 } else { answer };
        *self.answers.entry(answer).or_default() += 1;
        let ours = call(lent);
        if ours != answer || *lent != before {
            self.wrong += 1;
            println!("DIFFERS from the archive, {asked:?} on {before:?}\n  archive {ours} {lent:?}");
        }
    }

    #[cfg(not(pretty))]
    fn beside_crate(&mut self, _: &[Make], _: &[u32], _: &Builder, _: [u32; 2]) {
        let _ = (MOST_STEPS, Call::roomy(Table::default(), 0));
    }

    #[cfg(pretty)]
    fn beside_crate(&mut self, program: &[Make], nodes: &[u32], builder: &Builder, widths: [u32; 2]) {
        let arena = pretty::Arena::new();
        let mut made: Vec<compare::beside::Built> = Vec::new();
        for make in program {
            made.push(compare::beside::make(&arena, &made, make));
        }
        for ((node, document), make) in nodes.iter().zip(&made).zip(program) {
            let words = builder.used.words[..4 * (*node as usize + 1)].to_vec();
            let table = Table { words, text: builder.used.text.clone() };
            // the crate has several Texts where it indents by more than 100
            if table.unfolded() < 5_000 && !program.iter().any(|make| matches!(make, Make::Indent(_, amount) if *amount > 100))
            {
                self.node_by_node += 1;
                if !compare::beside::same_nodes(document, &table, *node as usize) {
                    self.wrong += 1;
                    println!("OTHER NODES for {make:?}, program {program:?}\n  table {}", table.written());
                }
            }
            for width in widths {
                let call = Call::roomy(table.clone(), width);
                let run = call.run();
                let report = &run.report;
                if !matches!(report.answer, 0 | 6) || report.steps > MOST_STEPS || !run.clean && table.unfolded() > 100_000 {
                    self.left_out += 1;
                    continue;
                }
                let wrote = compare::beside::write(document, width);
                self.compared += 1;
                self.clean += u64::from(run.clean);
                self.marks_clean += u64::from(run.marks_clean);
                let same = wrote.failed == (report.answer == 6) && (wrote.failed || wrote.bytes == report.bytes);
                let same_marks = same && (wrote.failed || wrote.events == report.events);
                if run.clean && !same || run.marks_clean && !same_marks {
                    self.wrong += 1;
                    if self.wrong <= 5 {
                        println!(
                            "DIFFERS at width {width}, the node of {make:?}, program {program:?}\n  table {}",
                            table.written()
                        );
                        println!("  model {report:?}\n  crate {wrote:?}");
                    }
                }
            }
        }
    }
}

#[cfg(pretty)]
extern crate pretty;
