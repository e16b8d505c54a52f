//! cases [count=N] [seed=S] [each=M]: prints N random calls with the model's answers as a file of cases that antt computes
//! with the definitions of crates/rules (see its proofs/Case.antt), M cases to a test. docs/MODEL.md says how it is run.
//!
//! Two in five are laid out; the rest are refused, the answers 6 to 9 about as often, and 1 to 5 a few times each.

use compare::calls::{tight_call, wild_call, Call};
use compare::model::Report;
use compare::tables::Random;

fn main() {
    let (mut count, mut seed, mut each) = (400usize, 1u64, 40usize);
    for argument in std::env::args().skip(1) {
        match argument.split_once('=').and_then(|(name, n)| Some((name, n.parse::<u64>().ok()?))) {
            Some(("count", n)) => count = n as usize,
            Some(("seed", n)) => seed = n,
            Some(("each", n)) => each = n as usize,
            _ => {
                eprintln!("cases: what is {argument}? Known: count=N seed=S each=M");
                std::process::exit(2);
            }
        }
    }
    print!("{}", head(count, seed));
    let cases = sample(count, seed);
    for (n, part) in cases.chunks(each).enumerate() {
        println!("\ncases{n} : List Case\nunfolding case\ncases{n} =");
        for (i, (call, report)) in part.iter().enumerate() {
            println!("    {}{}", if i == 0 { "" } else { "∷ " }, written(call, report));
        }
        println!("    ∷ []\n\nsampled{n} : T (every cases{n})\nunfolding cases{n} every\nsampled{n} = tt");
    }
    let of = |answer| cases.iter().filter(|(_, report)| report.answer == answer).count();
    eprintln!("answers {}", (0..10).map(|answer| format!("{answer}: {}", of(answer))).collect::<Vec<_>>().join(", "));
}

fn head(count: usize, seed: u64) -> String {
    format!(
        "-- {count} random calls with the answers of the interpreter in compare/src/model.rs, computed here by the definitions.
-- Made by `compare/run cases count={count} seed={seed}`; not edited by hand. Assumes nothing.
use mathlib.Core.List.{{List, [], ◌∷◌}}
use lib.Dec.{{T}}
use Rattle.rules.proofs.Case.{{Case, case, every}}
"
    )
}

/// Small calls: few nodes, few writes, for antt computes them.
fn sample(count: usize, seed: u64) -> Vec<(Call, Report)> {
    let most = |answer: u32| match answer {
        0 => count - 5 * (count / 50) - 4 * (count / 8),
        1..=5 => count / 50,
        _ => count / 8,
    };
    let mut random = Random(seed);
    let mut made = [0usize; 10];
    let mut cases = Vec::new();
    while cases.len() < count {
        let nodes = 2 + random.below(12);
        let mut call = if random.one_in(6) { wild_call(&mut random) } else { tight_call(&mut random, nodes, 300) };
        call.work = 16_384;
        let report = call.run().report;
        let small =
            call.table.words.len() <= 60 && call.table.text.len() <= 40 && report.bytes.len() <= 40 && report.steps <= 300;
        let answer = report.answer as usize;
        // the least of runs say nothing
        if !small || report.answer == 0 && report.steps < 4 || made[answer] >= most(report.answer) {
            continue;
        }
        made[answer] += 1;
        cases.push((call, report));
    }
    cases
}

/// Numbers that stand on a line.
const ON_A_LINE: usize = 32;

fn list(numbers: impl Iterator<Item = u32>) -> String {
    let all: Vec<String> = numbers.map(|n| n.to_string()).collect();
    if all.is_empty() {
        return "[]".to_string();
    }
    let lines: Vec<String> = all.chunks(ON_A_LINE).map(|line| line.join(" ∷ ")).collect();
    format!("({} ∷ [])", lines.join("\n    ∷ "))
}

/// Four parts, each from a line of its own on: the table; the text and the limits; the answer and the bytes; the events.
fn written(call: &Call, report: &Report) -> String {
    let bytes = |bytes: &[u8]| list(bytes.iter().map(|&b| u32::from(b)));
    format!(
        "case {}\n    {} {} {} {} {}\n    {} {} {} {}\n    {}",
        list(call.table.words.iter().copied()),
        bytes(&call.table.text),
        call.width,
        call.limit,
        call.room,
        call.slots,
        report.answer,
        report.place,
        report.steps,
        bytes(&report.bytes),
        list(report.events.iter().flat_map(|e| [e.offset, e.mark, e.label])),
    )
}
