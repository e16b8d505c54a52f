//! replay FOLDER [count=N] [seed=S]: writes FOLDER/stdin and FOLDER/stdout, the cases and runs that the program crates/replay
//! makes in `rt ci` and what it must write. First the cases of cases.txt, each a table with the answer and the place that
//! validation must give; then, behind a line that starts with a percent sign, the runs: the known ones (known.txt), the sizes at
//! and past their limits, and N random calls with all of the answers 0 to 9.
//!
//! A case is a line: answer and place, the table's words, the text bytes, and a name, with bars between. What is written of it is
//! answer, place and name; the cases are counted behind the last.
//!
//! A run is a line of stdin: the table's words in decimal, the text bytes in hexadecimal, width, limit, room and slots,
//! and a name, with bars between; 7*40 stands for 40 times 7. A line of stdout is how it ends: answer, place and steps, the
//! bytes used, the words of the events used, how many bytes of output, words of events and words of work are not zero that
//! must be, and the name.

use compare::calls::{tight_call, wild_call, Call};
use compare::known::known;
use compare::model::Report;
use compare::tables::{Random, Table};

// the cases, as they stand in stdin
const CASES: &str = include_str!("../../cases.txt");

// what the replaying program can lend
const WORDS: usize = 4200;
const TEXT: usize = 65_600;
const ROOM: usize = 65_600;
const SLOTS: usize = 4100;

fn main() {
    let (mut folder, mut count, mut seed) = (None, 400usize, 1u64);
    for argument in std::env::args().skip(1) {
        match argument.split_once('=').and_then(|(name, n)| Some((name, n.parse::<u64>().ok()?))) {
            Some(("count", n)) => count = n as usize,
            Some(("seed", n)) => seed = n,
            _ => folder = Some(argument),
        }
    }
    let Some(folder) = folder else {
        eprintln!("replay: which folder? replay FOLDER [count=N] [seed=S]");
        std::process::exit(2);
    };
    let mut calls: Vec<(String, Call)> = known().into_iter().map(|known| (known.name.to_string(), known.call)).collect();
    calls.extend(at_the_limits());
    calls.extend(sample(count, seed));
    let (mut input, mut output) = (CASES.to_string(), told_of_cases());
    input += "% the runs: the table's words | text bytes | width limit room slots | name\n";
    let mut answers = [0; 10];
    for (name, call) in &calls {
        let sizes = [call.table.words.len() <= WORDS, call.table.text.len() <= TEXT, call.room <= ROOM, call.slots <= SLOTS];
        assert!(sizes == [true; 4] && call.work == 16_384, "{name} can't be lent");
        let report = call.run().report;
        answers[report.answer as usize] += 1;
        input += &run_line(name, call);
        output += &end_line(name, &report);
    }
    std::fs::write(format!("{folder}/stdin"), &input).expect("the folder can be written to");
    std::fs::write(format!("{folder}/stdout"), &output).expect("the folder can be written to");
    println!("{} runs, {} and {} bytes; answers 0 to 9: {answers:?}", calls.len(), input.len(), output.len());
}

/// What the program must write of the cases: what each of them wants, and how many they are.
fn told_of_cases() -> String {
    let mut told = String::new();
    let mut count = 0;
    for line in CASES.lines().filter(|line| !line.is_empty() && !line.starts_with('#')) {
        let parts: Vec<&str> = line.splitn(4, '|').collect();
        told += &format!("{}{}\n", parts[0].trim_end(), parts[3]);
        count += 1;
    }
    told + &format!("{count} cases, 0 wrong\n")
}

/// Each size at its limit and one past it, and the smallest limits.
fn at_the_limits() -> Vec<(String, Call)> {
    let one = || Call::roomy(Table { words: vec![6, 0, 2, 2], text: b"ab".to_vec() }, 42);
    let mut all = Vec::new();
    let mut add = |name: &str, change: &dyn Fn(&mut Call)| {
        let mut call = one();
        change(&mut call);
        all.push((format!("limits: {name}"), call));
    };
    add("no words", &|call| call.table.words.clear());
    add("five words", &|call| call.table.words.push(0));
    add("4,096 words", &|call| call.table.words = vec![0; 4096]);
    add("4,100 words", &|call| call.table.words = vec![0; 4100]);
    add("65,536 bytes of text", &|call| call.table.text = vec![b'x'; 65_536]);
    add("65,537 bytes of text", &|call| call.table.text = vec![b'x'; 65_537]);
    add("65,536 bytes of output", &|call| call.room = 65_536);
    add("65,537 bytes of output", &|call| call.room = 65_537);
    add("4,096 events", &|call| call.slots = 4096);
    add("4,097 events", &|call| call.slots = 4097);
    add("width 65,535", &|call| call.width = 65_535);
    add("width 65,536", &|call| call.width = 65_536);
    add("limit 100,000,000", &|call| call.limit = 100_000_000);
    add("limit 100,000,001", &|call| call.limit = 100_000_001);
    add("limit 0", &|call| call.limit = 0);
    add("just room", &|call| call.room = 2);
    add("a byte too little", &|call| call.room = 1);
    add("no room for nothing", &|call| (call.table.words, call.room, call.slots) = (vec![0; 4], 0, 0));
    add("1,024 nodes, a full output", &|call| {
        call.table.text = vec![b'x'; 300];
        call.table.words = [vec![0; 4092], vec![6, 0, 300, 300]].concat();
        call.room = 300;
    });
    add("1,023 wait", &|call| {
        call.table.words = (0..1024).flat_map(|n| if n == 0 { [6, 0, 1, 1] } else { [1, n - 1, 0, 0] }).collect();
    });
    // The first part walks down 1,021 Appends whose second parts wait over the root's second part; the Group at the bottom tests
    // all of that, down the same 1,021 Appends again.
    add("stacks of 1,022 and 1,021", &|call| {
        let inner = (2..1023).flat_map(|n| [1, n - 1, 0, 0]);
        call.table.words = [0, 0, 0, 0, 2, 0, 0, 0].into_iter().chain(inner).chain([1, 1022, 1022, 0]).collect();
    });
    // A mark in a trial in a trial in a mark: the inner trial is given up, the outer one stands.
    add("trials in trials, marks in trials", &|call| {
        call.table.text = b"longs".to_vec();
        let (long, s, five) = ([6, 0, 4, 4], [6, 4, 1, 1], [7, 0, 5, 0]);
        let rest = [[7, 1, 6, 0], [8, 2, 3, 0], [7, 4, 7, 0], [8, 5, 0, 0], [7, 6, 8, 0]];
        call.table.words = [long, s, five].into_iter().chain(rest).flatten().collect();
        call.width = 3;
    });
    all
}

fn sample(count: usize, seed: u64) -> Vec<(String, Call)> {
    let mut random = Random(seed ^ 0x4e91a7);
    let mut made = [0usize; 10];
    let mut calls: Vec<(String, Call)> = Vec::new();
    while calls.len() < count {
        let nodes = if random.one_in(10) { 10 + random.below(40) } else { 2 + random.below(14) };
        let mut call = if random.one_in(3) { wild_call(&mut random) } else { tight_call(&mut random, nodes, 5000) };
        call.work = 16_384;
        let small = call.table.words.len() <= 400 && call.table.text.len() <= 400;
        let report = call.run().report;
        let most = if report.answer == 0 { count * 2 / 5 } else { count / 12 };
        if small && report.bytes.len() <= 400 && made[report.answer as usize] < most {
            made[report.answer as usize] += 1;
            calls.push((format!("random {}", calls.len() + 1), call));
        }
    }
    calls
}

/// The numbers with a blank after each, and a bar; eight or more of the same are written once with their count.
fn list(numbers: &[u32], write: impl Fn(u32) -> String) -> String {
    let same = numbers.chunk_by(|a, b| a == b).map(|run| match run.len() {
        8.. => format!("{}*{} ", write(run[0]), run.len()),
        _ => format!("{} ", write(run[0])).repeat(run.len()),
    });
    same.collect::<String>() + "| "
}

fn run_line(name: &str, call: &Call) -> String {
    let text: Vec<u32> = call.table.text.iter().map(|&byte| u32::from(byte)).collect();
    let sizes = [call.width, call.limit, call.room as u32, call.slots as u32];
    list(&call.table.words, |n| n.to_string())
        + &list(&text, |n| format!("{n:02x}"))
        + &list(&sizes, |n| n.to_string())
        + name
        + "\n"
}

/// As the program writes it, each number by itself.
fn end_line(name: &str, report: &Report) -> String {
    let plain = |numbers: Vec<u32>| numbers.iter().map(|n| format!("{n} ")).collect::<String>() + "| ";
    let bytes = report.bytes.iter().map(|&byte| u32::from(byte)).collect();
    let events = report.events.iter().flat_map(|e| [e.offset, e.mark, e.label]).collect();
    plain(vec![report.answer, report.place, report.steps]) + &plain(bytes) + &plain(events) + "0 0 0 | " + name + "\n"
}
