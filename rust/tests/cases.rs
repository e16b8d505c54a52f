//! Runs tests/cases.txt through the exports, and what of it can be asked for there through the layout functions, drafts and strips. Every
//! element of every buffer is looked at afterwards.

use pursegable::sizes::{DEFAULT_STEPS, EVENT_WORDS, LABEL_WIDTH, REPORT_WORDS, SHEET_WIDTH, WORK_WORDS};
use pursegable::{Draft, Event, Laid, Node, Refusal, Refused, Strip, label, layout, raw, sheet, why};

const CASES: &str = include_str!("../../tests/cases.txt");
const BYTE: u8 = 0xa5;
const WORD: u32 = 0xa5a5_a5a5;
const EVENT: Event = Event::from_words([WORD; EVENT_WORDS]);

// ---- reading the cases

fn words(s: &str) -> Vec<u32> {
    s.split_whitespace()
        .flat_map(|w| match w.split_once('*') {
            Some((v, n)) => vec![v.parse().unwrap(); n.parse().unwrap()],
            None => vec![w.parse().unwrap()],
        })
        .collect()
}

fn bytes(s: &str) -> Vec<u8> {
    let s = s.trim();
    if let Some((v, n)) = s.split_once('*') {
        return vec![u8::from_str_radix(v, 16).unwrap(); n.parse().unwrap()];
    }
    if s == "-" {
        return vec![];
    }
    (0..s.len() / 2).map(|i| u8::from_str_radix(&s[2 * i..2 * i + 2], 16).unwrap()).collect()
}

fn padded<T: Copy>(used: &[T], size: usize, zero: T) -> Vec<T> {
    let mut all = used.to_vec();
    all.resize(size, zero);
    all
}

// ---- calls

/// A line that starts with `call`: what is asked, what is lent and what must be there afterwards.
struct Case<'a> {
    line: &'a str,
    width: u32,
    limit: u32,
    room: usize,
    slots: usize,
    work: usize,
    report: usize,
    table: Vec<u32>,
    text: Vec<u8>,
    answer: [u32; 3],
    used: Vec<u8>,
    marks: Vec<u32>,
}

/// `raw::sheet` and `raw::label`.
type ByDefault = fn(&[u32], &[u8], &mut [u8], &mut [Event], &mut [u32], &mut [u32]) -> u32;

/// Buffers of a case's lengths.
struct Lent {
    out: Vec<u8>,
    events: Vec<Event>,
    work: Vec<u32>,
    report: Vec<u32>,
}

impl<'a> Case<'a> {
    fn read(line: &'a str) -> Self {
        let part: Vec<&str> = line.split('|').collect();
        let (at, sizes) = (words(part[1]), words(part[2]));
        let size = |i: usize| sizes[i] as usize;
        Case {
            line,
            width: at[0],
            limit: at[1],
            room: size(0),
            slots: size(1),
            work: size(2),
            report: size(3),
            table: words(part[3]),
            text: bytes(part[4]),
            answer: words(part[5]).try_into().unwrap(),
            used: bytes(part[6]),
            marks: words(part[7]),
        }
    }

    fn lend(&self) -> Lent {
        Lent {
            out: vec![BYTE; self.room],
            events: vec![EVENT; self.slots],
            work: vec![WORD; self.work],
            report: vec![WORD; self.report],
        }
    }

    fn records(&self) -> Vec<Event> {
        self.marks.chunks(EVENT_WORDS).map(|words| Event::from_words(words.try_into().unwrap())).collect()
    }

    fn same_buffers(&self, name: &str, lent: &Lent) {
        assert_eq!(lent.out, padded(&self.used, self.room, 0), "{name}: the output of {}", self.line);
        assert_eq!(lent.events, padded(&self.records(), self.slots, Event::default()), "{name}: the events of {}", self.line);
        assert!(lent.work.iter().all(|w| *w == 0), "{name}: the work area of {}", self.line);
    }

    fn same_report(&self, name: &str, answer: u32, report: &[u32]) {
        let [number, place, steps] = self.answer;
        let (used, marks) = (u32::try_from(self.used.len()).unwrap(), u32::try_from(self.records().len()).unwrap());
        let all = [number, place, steps, used, marks];
        let told = if self.report < REPORT_WORDS { &[][..] } else { &all[..] };
        assert_eq!(answer, number, "{name}: the answer of {}", self.line);
        assert_eq!(report, padded(told, self.report, 0), "{name}: the report of {}", self.line);
    }

    fn same_result(&self, name: &str, result: Result<Laid, Refused>) {
        let [number, place, steps] = self.answer;
        match result {
            Ok(laid) => {
                assert_eq!((0, laid.place, laid.steps), (number, None, steps), "{name}: {}", self.line);
                assert_eq!(laid.bytes, self.used, "{name}: {}", self.line);
                assert_eq!(laid.events().collect::<Vec<_>>(), self.records(), "{name}: {}", self.line);
            }
            Err(refused) => {
                let told = refused.place.map_or(0, Node::number);
                assert_eq!((refused.why.number(), told, refused.steps), (number, place, steps), "{name}: {}", self.line);
                assert_eq!(refused.place.is_some(), [2, 3, 4, 5, 7, 9].contains(&number), "{name}: {}", self.line);
            }
        }
    }

    /// By the exports; how many calls.
    fn by_exports(&self) -> usize {
        let (table, text, width, limit) = (&self.table, &self.text, self.width, self.limit);
        let mut lent = self.lend();
        let Lent { out, events, work, report } = &mut lent;
        let answer = raw::layout(table, text, width, limit, out, events, work, report);
        self.same_buffers("raw::layout", &lent);
        self.same_report("raw::layout", answer, &lent.report);

        let mut lent = self.lend();
        let mut flat = vec![WORD; EVENT_WORDS * self.slots];
        let Lent { out, events, work, report } = &mut lent;
        let answer = raw::layout_words(table, text, width, limit, out, &mut flat, work, report);
        assert_eq!(flat, padded(&self.marks, flat.len(), 0), "the events' words of {}", self.line);
        events.copy_from_slice(&padded(&self.records(), self.slots, Event::default()));
        self.same_buffers("raw::layout_words", &lent);
        self.same_report("raw::layout_words", answer, &lent.report);
        let mut count = 2;
        for (name, width, call) in
            [("raw::sheet", SHEET_WIDTH, raw::sheet as ByDefault), ("raw::label", LABEL_WIDTH, raw::label)]
        {
            if self.at(width) {
                let mut lent = self.lend();
                let Lent { out, events, work, report } = &mut lent;
                let answer = call(table, text, out, events, work, report);
                self.same_buffers(name, &lent);
                self.same_report(name, answer, &lent.report);
                count += 1;
            }
        }
        count
    }

    /// By the safe functions, which always have room for the report; how many calls.
    fn by_slices(&self) -> usize {
        if self.report < REPORT_WORDS {
            return 0;
        }
        let mut lent = self.lend();
        let Lent { out, events, work, .. } = &mut lent;
        self.same_result("layout", layout(&self.table, &self.text, self.width, self.limit, out, events, work));
        self.same_buffers("layout", &lent);
        let mut count = 1;
        if self.at(SHEET_WIDTH) {
            let mut lent = self.lend();
            let Lent { out, events, work, .. } = &mut lent;
            self.same_result("sheet", sheet(&self.table, &self.text, out, events, work));
            self.same_buffers("sheet", &lent);
            count += 1;
        }
        if self.at(LABEL_WIDTH) {
            let mut lent = self.lend();
            let Lent { out, events, work, .. } = &mut lent;
            self.same_result("label", label(&self.table, &self.text, out, events, work));
            self.same_buffers("label", &lent);
            count += 1;
        }
        count
    }

    /// Whether this is what the functions ask that take no width, this one being theirs.
    fn at(&self, width: u32) -> bool {
        (self.width, self.limit) == (width, DEFAULT_STEPS)
    }
}

#[test]
fn calls() {
    let cases = CASES.lines().filter(|line| line.starts_with("call")).map(Case::read);
    let count: usize = cases.map(|case| case.by_exports() + case.by_slices()).sum();
    assert!(count > 200, "only {count} calls");
    println!("cases.rs: {count} calls as they should be");
}

// ---- why

/// A line that starts with `why`: through the export, every buffer looked at, and through the enum.
fn asked(line: &str) {
    let part: Vec<&str> = line.split('|').collect();
    let (at, sizes, table, text) = (words(part[1]), words(part[2]), words(part[3]), bytes(part[4]));
    let want: [u32; REPORT_WORDS] = words(part[5]).try_into().unwrap();
    let size = |i: usize| sizes[i] as usize;
    let (mut out, mut events) = (vec![BYTE; size(0)], vec![WORD; EVENT_WORDS * size(1)]);
    let (mut work, mut report) = (vec![WORD; size(2)], vec![WORD; size(3)]);
    let answer = raw::why(&table, &text, at[0], at[1], at[2], &mut out, &mut events, &mut work, &mut report);
    assert_eq!(answer, want[0], "{line}");
    let told = if report.len() < REPORT_WORDS { &[][..] } else { &want[..] };
    assert_eq!(report, padded(told, report.len(), 0), "{line}");
    assert!(out.iter().all(|&byte| byte == 0) && events.iter().chain(&work).all(|&word| word == 0), "{line}");
    if report.len() < REPORT_WORDS {
        return;
    }
    match why(&table, &text, at[0], at[1], at[2], &mut out, &mut events, &mut work) {
        Ok(reason) => assert_eq!((0, reason.is_flat()), (want[0], want[1] == 0), "{line}"),
        Err(refusal) => assert_eq!(refusal.number(), want[0], "{line}"),
    }
}

#[test]
fn whys() {
    let lines: Vec<&str> = CASES.lines().filter(|line| line.starts_with("why")).collect();
    lines.iter().for_each(|line| asked(line));
    assert!(lines.len() > 10, "only {} of why", lines.len());
}

// ---- constructors

/// What a script builds in: the exports over any counts, or a draft.
trait Builder {
    /// The constructor of a line, called; nothing if it can't be asked for here.
    fn construct(&mut self, name: &str, args: &str, part: &[&str]) -> Option<Result<Node, Refusal>>;
    /// The counts afterwards: nodes and bytes, and what else there is.
    fn counts(&self) -> Vec<u32>;
    fn lay(&mut self, node: Node, width: u32, strip: &mut Strip, look: &mut dyn FnMut(Result<Laid, Refused>));
}

struct Exports<'a> {
    table: &'a mut [u32],
    text: &'a mut [u8],
    counts: Vec<u32>,
}

impl Builder for Exports<'_> {
    fn construct(&mut self, name: &str, args: &str, part: &[&str]) -> Option<Result<Node, Refusal>> {
        let Exports { table, text, counts } = self;
        let answer = match name {
            "text" => {
                let (b, columns) = args.split_once(' ').unwrap();
                raw::text(&bytes(b), words(columns)[0], table, text, counts)
            }
            "make" => {
                let w = words(args);
                raw::make(w[0], w[1], w[2], w[3], table, text, counts)
            }
            "concat" => raw::concat(&words(args), table, text, counts),
            "intersperse" => {
                let w = words(args);
                raw::intersperse(&w[1..], w[0], table, text, counts)
            }
            "block" => {
                let (w, flags) = (words(args), words(part[3]));
                let flags: Vec<u8> = flags.iter().map(|flag| u8::try_from(*flag).unwrap()).collect();
                raw::block(w[0], w[1], w[2], &words(part[1]), &words(part[2]), &flags, table, text, counts)
            }
            _ => panic!("what is {name}?"),
        };
        Some(match Refusal::from_number(answer) {
            None => Ok(Node::from_number(counts[2])),
            Some(refusal) => Err(refusal),
        })
    }

    fn counts(&self) -> Vec<u32> {
        self.counts.clone()
    }

    fn lay(&mut self, node: Node, width: u32, _: &mut Strip, look: &mut dyn FnMut(Result<Laid, Refused>)) {
        let (words, bytes) = (4 * (node.number() as usize + 1), self.counts[1] as usize);
        let (mut out, mut events, mut work) = ([BYTE; 64], [EVENT; 1], vec![WORD; WORK_WORDS]);
        look(layout(&self.table[..words], &self.text[..bytes], width, 1_000_000, &mut out, &mut events, &mut work));
    }
}

/// An amount of the table's words as a draft takes it; nothing if there is no such way.
fn signed(amount: u32, way: u32) -> Option<i32> {
    let amount = i32::try_from(amount).ok()?;
    match way {
        0 => Some(amount),
        1 => Some(-amount),
        _ => None,
    }
}

fn made(draft: &Draft, w: &[u32]) -> Option<Result<Node, Refusal>> {
    let [a, b, c] = [w[1], w[2], w[3]].map(Node::from_number);
    Some(match w[0] {
        0 => draft.nil(),
        1 => draft.append(a, b),
        2 => draft.group(a),
        3 => draft.flat_alt(a, b),
        4 => draft.nest(a, signed(w[2], w[3])?),
        5 => draft.hardline(),
        7 => draft.annotate(a, w[2]),
        8 => draft.union(a, b),
        9 => draft.align(a),
        10 => draft.fail(),
        11 => draft.space(),
        12 => draft.line(),
        13 => draft.line_(),
        14 => draft.softline(),
        15 => draft.softline_(),
        16 => draft.hang(a, signed(w[2], w[3])?),
        17 => draft.indent(a, w[2]),
        18 => draft.enclose(a, b, c),
        _ => return None,
    })
}

impl Builder for Draft<'_> {
    fn construct(&mut self, name: &str, args: &str, part: &[&str]) -> Option<Result<Node, Refusal>> {
        let nodes = |s: &str| words(s).into_iter().map(Node::from_number).collect::<Vec<_>>();
        Some(match name {
            "text" => {
                let (b, columns) = args.split_once(' ').unwrap();
                self.text_bytes(&bytes(b), words(columns)[0])
            }
            "make" => made(self, &words(args))?,
            "concat" => self.concat(nodes(args)),
            "intersperse" => self.intersperse(nodes(args)[1..].iter().copied(), nodes(args)[0]),
            "block" => {
                let (w, flags) = (words(args), words(part[3]));
                let (prefixes, suffixes) = (nodes(part[1]), nodes(part[2]));
                let amount = signed(w[1], w[2])?;
                if prefixes.len() != suffixes.len() || prefixes.len() != flags.len() {
                    return None;
                }
                let mut block = self.block(Node::from_number(w[0]));
                for ((prefix, suffix), flag) in prefixes.into_iter().zip(suffixes).zip(flags) {
                    block = if flag == 0 { block.affix(prefix, suffix) } else { block.nested(prefix, suffix) };
                }
                block.format(amount)
            }
            _ => panic!("what is {name}?"),
        })
    }

    fn counts(&self) -> Vec<u32> {
        [self.nodes(), self.bytes()].map(|count| u32::try_from(count).unwrap()).to_vec()
    }

    fn lay(&mut self, node: Node, width: u32, strip: &mut Strip, look: &mut dyn FnMut(Result<Laid, Refused>)) {
        look(strip.layout(self, node, width, 1_000_000));
    }
}

/// The lines of a script but the one that says what the buffers hold; how many constructors and layouts were called.
fn follow(builder: &mut dyn Builder, script: &[&str]) -> usize {
    let mut strip = Strip::with_room(64, 1);
    let mut count = 0;
    for line in script.iter().filter(|line| !line.starts_with("holds")) {
        let part: Vec<&str> = line.split('|').collect();
        let (name, args) = part[0].trim().split_once(' ').unwrap_or((part[0].trim(), ""));
        let want = words(part[if name == "lay" { 1 } else { part.len() - 1 }]);
        if name == "lay" {
            let at = words(args);
            builder.lay(Node::from_number(at[0]), at[1], &mut strip, &mut |result| {
                let laid = result.unwrap();
                assert_eq!(([0, 0, laid.steps], laid.bytes), ([want[0], want[1], want[2]], &bytes(part[2])[..]), "{line}");
            });
            count += 1;
        } else if let Some(got) = builder.construct(name, args, &part) {
            let counts = builder.counts();
            assert_eq!(counts[..], want[1..=counts.len()], "the counts after {line}");
            assert_eq!(got.map_or_else(Refusal::number, |_| 0), want[0], "{line}");
            if let Ok(node) = got {
                assert_eq!(node.number(), want[3], "{line}");
            }
            count += 1;
        } else {
            assert_ne!(want[0], 0, "what can't be asked for changes nothing: {line}");
        }
    }
    count
}

/// A script in buffers of its sizes, by the exports and, if it starts with no node, by a draft.
fn run(head: &str, script: &[&str]) -> usize {
    let (start, sizes) = head["counts".len()..].split_once('|').unwrap();
    let (start, sizes) = (words(start), words(sizes));
    let mut count = 0;
    for by_draft in [false, true] {
        if by_draft && start != [0, 0, 0] {
            continue;
        }
        let (mut table, mut text) = (vec![WORD; sizes[0] as usize], vec![BYTE; sizes[1] as usize]);
        count += if by_draft {
            follow(&mut Draft::lent(&mut table, &mut text), script)
        } else {
            follow(&mut Exports { table: &mut table, text: &mut text, counts: start.clone() }, script)
        };
        let last = script.iter().find(|line| line.starts_with("holds"));
        let part: Vec<&str> = last.map_or("holds | | -", |line| line).split('|').collect();
        assert_eq!(table, padded(&words(part[1]), table.len(), WORD), "the table of {head}");
        assert_eq!(text, padded(&bytes(part[2]), text.len(), BYTE), "the text of {head}");
    }
    count
}

#[test]
fn constructors() {
    let lines: Vec<&str> = CASES.lines().filter(|l| !["#", "call", "why"].iter().any(|head| l.starts_with(head))).collect();
    let heads = lines.iter().filter(|line| line.starts_with("counts"));
    let scripts = lines.split(|line| line.starts_with("counts")).skip(1);
    let count: usize = heads.zip(scripts).map(|(head, script)| run(head, script)).sum();
    assert!(count > 200, "only {count} constructors");
    println!("cases.rs: {count} constructors as they should be");
}
