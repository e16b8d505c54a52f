//! Document 01 once more, as a machine: one loop, a list of what waits, a stack of trials. It was written from 01's text and
//! shares nothing with the definitions in crates/rules, which are recursive over trees; the two are run against each other.
//!
//! What waits is a list whose entries are never changed, so that "as before the Union" is the list's old head.
//! Besides the report a run tells what 01's "Clean runs" asks, decided at the moment a Hardline is met or a trial begins.

/// The kinds of nodes, by their numbers.
pub mod kind {
    pub const NIL: u32 = 0;
    pub const APPEND: u32 = 1;
    pub const GROUP: u32 = 2;
    pub const FLAT_ALT: u32 = 3;
    pub const NEST: u32 = 4;
    pub const HARDLINE: u32 = 5;
    pub const TEXT: u32 = 6;
    pub const ANNOTATED: u32 = 7;
    pub const UNION: u32 = 8;
    pub const ALIGN: u32 = 9;
    pub const FAIL: u32 = 10;
}
use kind::*;

/// What a call is lent. Of the buffers only their sizes matter: bytes of output, event records, words of work.
#[derive(Clone, Copy)]
pub struct Given<'a> {
    pub table: &'a [u32],
    pub text: &'a [u8],
    pub width: u32,
    pub limit: u32,
    pub room: usize,
    pub slots: usize,
    pub work: usize,
}

#[derive(Clone, Copy, PartialEq, Eq, Debug)]
#[repr(C)]
pub struct Event {
    pub offset: u32,
    pub mark: u32,
    pub label: u32,
}

#[derive(Clone, PartialEq, Eq, Debug, Default)]
pub struct Report {
    pub answer: u32,
    pub place: u32,
    pub steps: u32,
    pub bytes: Vec<u8>,
    pub events: Vec<Event>,
}

/// A report, and what 01 calls the run that gave it.
#[derive(Clone, Debug, Default)]
pub struct Run {
    pub report: Report,
    pub clean: bool,
    pub marks_clean: bool,
    /// the most entries that waited at once, in layout and in a fit test's own list
    pub waited: usize,
}

/// Why the Group that is visited at a step goes flat or broken (document 02, request 2026-01): the answer, 0 flat or 1 broken, the reason,
/// the node and the column.
pub fn why(given: &Given, step: u32) -> [u32; 5] {
    let refused = |answer| [answer, 0, 0, 0, 0];
    if !sizes_right(given) {
        return refused(1);
    }
    if let Some((answer, _)) = fault(given.table, given.text) {
        return refused(answer);
    }
    if step == 0 {
        return refused(13);
    }
    let mut machine = Machine::new(given, step);
    match machine.run() {
        _ if machine.told.is_some() => machine.told.unwrap_or_default(),
        Ok(()) => refused(13),
        Err(Refused(answer, _)) => refused(answer),
    }
}

/// A whole call: sizes, validation, the run.
pub fn call(given: &Given) -> Run {
    let refused = |answer, place| Run {
        report: Report { answer, place, ..Report::default() },
        clean: true,
        marks_clean: true,
        waited: 0,
    };
    if !sizes_right(given) {
        return refused(1, 0);
    }
    match fault(given.table, given.text) {
        Some((answer, place)) => refused(answer, place),
        None => lay_out(given),
    }
}

fn sizes_right(g: &Given) -> bool {
    !g.table.is_empty()
        && g.table.len() % 4 == 0
        && g.table.len() <= 4096
        && g.text.len() <= 65_536
        && g.room <= 65_536
        && g.slots <= 4096
        && g.work >= 16_384
        && g.width <= 65_535
        && g.limit <= 100_000_000
}

// ---- validation

/// The first fault, nodes from 0 up: its answer 2 to 5 and the node.
pub fn fault(table: &[u32], text: &[u8]) -> Option<(u32, u32)> {
    (0u32..).zip(table.chunks_exact(4)).find_map(|(n, node)| fault_of(n, node, text).map(|answer| (answer, n)))
}

/// For a kind: its children, which are its first words, and how many words it uses.
pub fn shape(kind: u32) -> Option<(usize, usize)> {
    Some(match kind {
        NIL | HARDLINE | FAIL => (0, 0),
        GROUP | ALIGN => (1, 1),
        ANNOTATED => (1, 2),
        NEST => (1, 3),
        APPEND | FLAT_ALT | UNION => (2, 2),
        TEXT => (0, 3),
        _ => return None,
    })
}

fn fault_of(n: u32, node: &[u32], text: &[u8]) -> Option<u32> {
    let words = &node[1..];
    let Some((children, used)) = shape(node[0]) else { return Some(2) };
    if words[used..].iter().any(|&word| word != 0) {
        return Some(2);
    }
    if words[..children].iter().any(|&child| child >= n) || node[0] == NEST && (node[2] > 1000 || node[3] > 1) {
        return Some(3);
    }
    if node[0] == TEXT {
        let (start, length, columns) = (node[1] as usize, node[2] as usize, node[3] as usize);
        let Some(bytes) = text.get(start..start + length) else { return Some(4) };
        if !columns_right(bytes, columns) {
            return Some(5);
        }
    }
    None
}

/// Well-formed and without a line feed, and the columns equal the length if all bytes are below 128, else are at most the length.
pub fn columns_right(bytes: &[u8], columns: usize) -> bool {
    if bytes.contains(&b'\n') {
        false
    } else if bytes.is_ascii() {
        columns == bytes.len()
    } else {
        std::str::from_utf8(bytes).is_ok() && columns <= bytes.len()
    }
}

// ---- the run

#[derive(Clone, Copy, PartialEq, Eq)]
enum Mode {
    Broken,
    Flat,
}

#[derive(Clone, Copy)]
enum Entry {
    Node { node: u32, indent: usize, mode: Mode },
    EndOfAnnotation { node: u32 },
    EndOfTrial,
}

/// An entry, and the number of the one that waits behind it; 0 for none.
#[derive(Clone, Copy)]
struct Link {
    entry: Entry,
    behind: usize,
}

/// What is as before the Union when the trial is given up, and what stands in its place then.
struct Trial {
    column: usize,
    bytes: usize,
    events: usize,
    waiting: usize,
    depth: usize,
    open: usize,
    second: Entry,
    past_width: bool,
}

/// A refusal that ends the call: answer and place.
struct Refused(u32, u32);

struct Machine<'a> {
    given: &'a Given<'a>,
    links: Vec<Link>,
    waiting: usize,
    depth: usize,
    trials: Vec<Trial>,
    column: usize,
    open: usize,
    steps: u32,
    bytes: Vec<u8>,
    events: Vec<Event>,
    clean: bool,
    marks: bool,
    waited: usize,
    /// the visit that `why` asks for, 0 for none, and what it answers
    asked: u32,
    told: Option<[u32; 5]>,
}

fn lay_out(given: &Given) -> Run {
    let mut m = Machine::new(given, 0);
    let ended = m.run();
    let (clean, marks_clean, waited, steps) = (m.clean, m.clean && m.marks, m.waited, m.steps);
    let report = match ended {
        Ok(()) => Report { answer: 0, place: 0, steps, bytes: m.bytes, events: m.events },
        Err(Refused(answer, place)) => Report { answer, place, steps, ..Report::default() },
    };
    Run { report, clean, marks_clean, waited }
}

impl<'a> Machine<'a> {
    /// The root waits.
    fn new(given: &'a Given<'a>, asked: u32) -> Machine<'a> {
        let mut machine = Machine {
            given,
            links: Vec::new(),
            waiting: 0,
            depth: 0,
            trials: Vec::new(),
            column: 0,
            open: 0,
            steps: 0,
            bytes: Vec::new(),
            events: Vec::new(),
            clean: true,
            marks: true,
            waited: 0,
            asked,
            told: None,
        };
        let root = given.table.len() as u32 / 4 - 1;
        machine.wait(Entry::Node { node: root, indent: 0, mode: Mode::Broken });
        machine
    }
}

impl Machine<'_> {
    fn wait(&mut self, entry: Entry) {
        self.links.push(Link { entry, behind: self.waiting });
        self.waiting = self.links.len();
        self.depth += 1;
    }

    fn take(&mut self) -> Option<Entry> {
        let link = *self.links.get(self.waiting.checked_sub(1)?)?;
        if self.trials.is_empty() {
            self.links.truncate(self.waiting - 1);
        }
        self.waiting = link.behind;
        self.depth -= 1;
        Some(link.entry)
    }

    fn run(&mut self) -> Result<(), Refused> {
        while let Some(entry) = self.take() {
            match entry {
                Entry::Node { node, indent, mode } => self.visit(node, indent, mode)?,
                Entry::EndOfAnnotation { node } => {
                    self.open -= 1;
                    self.event(node, 0)?;
                }
                Entry::EndOfTrial => match self.trials.last() {
                    Some(trial) if trial.past_width => self.give_up(),
                    _ => drop(self.trials.pop()),
                },
            }
        }
        Ok(())
    }

    /// One step, unless the steps equal the limit.
    fn step(&mut self, node: u32) -> Result<(), Refused> {
        if self.steps == self.given.limit {
            return Err(Refused(7, node));
        }
        self.steps += 1;
        Ok(())
    }

    fn words(&self, node: u32) -> [u32; 4] {
        let at = node as usize * 4;
        [self.given.table[at], self.given.table[at + 1], self.given.table[at + 2], self.given.table[at + 3]]
    }

    fn visit(&mut self, node: u32, indent: usize, mode: Mode) -> Result<(), Refused> {
        self.waited = self.waited.max(self.depth);
        self.step(node)?;
        let [kind, a, b, c] = self.words(node);
        if self.steps == self.asked {
            self.told = Some(if kind == GROUP && mode == Mode::Broken { self.reason(a) } else { [13, 0, 0, 0, 0] });
            return Err(Refused(13, 0));
        }
        let go_on = |node| Entry::Node { node, indent, mode };
        match kind {
            NIL => {}
            APPEND => {
                self.wait(go_on(b));
                self.wait(go_on(a));
            }
            GROUP if mode == Mode::Broken => {
                let mode = if self.fits(a)? { Mode::Flat } else { Mode::Broken };
                self.wait(Entry::Node { node: a, indent, mode });
            }
            GROUP => self.wait(go_on(a)),
            FLAT_ALT => self.wait(go_on(if mode == Mode::Broken { a } else { b })),
            NEST => {
                let amount = b as usize;
                let indent = if c == 0 { indent + amount } else { indent.saturating_sub(amount) };
                self.wait(Entry::Node { node: a, indent, mode });
            }
            HARDLINE => self.hardline(indent)?,
            TEXT => self.text(a as usize, b as usize, c as usize)?,
            ANNOTATED => {
                self.event(node, 1)?;
                self.open += 1;
                self.wait(Entry::EndOfAnnotation { node });
                self.wait(go_on(a));
            }
            UNION => {
                self.marks &= self.open == 0;
                self.trials.push(Trial {
                    column: self.column,
                    bytes: self.bytes.len(),
                    events: self.events.len(),
                    waiting: self.waiting,
                    depth: self.depth,
                    open: self.open,
                    second: go_on(b),
                    past_width: false,
                });
                self.wait(Entry::EndOfTrial);
                self.wait(go_on(a));
            }
            ALIGN => self.wait(Entry::Node { node: a, indent: self.column, mode }),
            _ if self.trials.is_empty() => return Err(Refused(6, 0)),
            _ => self.give_up(),
        }
        Ok(())
    }

    /// The innermost trial is undone and its Union's second arm stands in the Union's place.
    fn give_up(&mut self) {
        let Some(trial) = self.trials.pop() else { return };
        self.column = trial.column;
        self.bytes.truncate(trial.bytes);
        self.events.truncate(trial.events);
        self.waiting = trial.waiting;
        self.depth = trial.depth;
        self.open = trial.open;
        self.wait(trial.second);
    }

    fn text(&mut self, start: usize, length: usize, columns: usize) -> Result<(), Refused> {
        if self.bytes.len() + length > self.given.room {
            return Err(Refused(8, 0));
        }
        self.bytes.extend_from_slice(&self.given.text[start..start + length]);
        self.column += columns;
        if self.column > self.given.width as usize {
            if let Some(trial) = self.trials.last_mut() {
                trial.past_width = true;
            }
        }
        Ok(())
    }

    /// Byte 10 and blanks to the next waiting node's indentation, found past all ends, else to its own.
    fn hardline(&mut self, own: usize) -> Result<(), Refused> {
        let mut indent = own;
        let mut next = self.waiting;
        while next != 0 {
            let link = self.links[next - 1];
            match link.entry {
                Entry::Node { indent: its, .. } => {
                    indent = its;
                    break;
                }
                Entry::EndOfTrial => self.clean = false,
                Entry::EndOfAnnotation { .. } => {}
            }
            next = link.behind;
        }
        self.marks &= self.open == 0;
        if self.bytes.len() + 1 + indent > self.given.room {
            return Err(Refused(8, 0));
        }
        self.bytes.push(b'\n');
        self.bytes.resize(self.bytes.len() + indent, b' ');
        self.column = indent;
        Ok(())
    }

    fn event(&mut self, node: u32, mark: u32) -> Result<(), Refused> {
        if self.events.len() == self.given.slots {
            return Err(Refused(9, node));
        }
        let label = self.words(node)[2];
        self.events.push(Event { offset: self.bytes.len() as u32, mark, label });
        Ok(())
    }

    /// The fit test: the child flat, then what waits, in order and broken.
    fn fits(&mut self, child: u32) -> Result<bool, Refused> {
        let mut own = vec![child];
        let mut mode = Mode::Flat;
        let mut column = self.column;
        let mut next = self.waiting;
        loop {
            let node = match own.pop() {
                Some(node) => node,
                None if next == 0 => return Ok(true),
                None => {
                    mode = Mode::Broken;
                    let link = self.links[next - 1];
                    next = link.behind;
                    match link.entry {
                        Entry::Node { node, .. } => node,
                        _ => continue,
                    }
                }
            };
            self.waited = self.waited.max(own.len());
            self.step(node)?;
            if self.steps == self.asked {
                return Err(Refused(13, 0));
            }
            let [kind, a, b, c] = self.words(node);
            match kind {
                NIL => {}
                APPEND => own.extend([b, a]),
                GROUP | NEST | ALIGN | ANNOTATED => own.push(a),
                UNION => own.push(b),
                FLAT_ALT => own.push(if mode == Mode::Flat { b } else { a }),
                TEXT => {
                    column += c as usize;
                    if column > self.given.width as usize {
                        return Ok(false);
                    }
                }
                HARDLINE => return Ok(mode == Mode::Broken),
                _ => return Ok(false),
            }
        }
    }

    /// The first node that a fit test of this child meets that breaks it or ends it flat. Where the column is not past the width, what
    /// has no columns and no end is passed over whole, so that what is shared takes no time.
    fn reason(&self, child: u32) -> [u32; 5] {
        let plain = self.plain();
        let width = self.given.width as usize;
        let mut own = vec![child];
        let mut mode = Mode::Flat;
        let mut column = self.column;
        let mut next = self.waiting;
        loop {
            let node = match own.pop() {
                Some(node) => node,
                None if next == 0 => return [0, 0, 4, 0, 0],
                None => {
                    mode = Mode::Broken;
                    let link = self.links[next - 1];
                    next = link.behind;
                    match link.entry {
                        Entry::Node { node, .. } => node,
                        _ => continue,
                    }
                }
            };
            if column <= width && plain[node as usize][(mode == Mode::Flat) as usize] {
                continue;
            }
            let [kind, a, b, c] = self.words(node);
            match kind {
                NIL => {}
                APPEND => own.extend([b, a]),
                GROUP | NEST | ALIGN | ANNOTATED => own.push(a),
                UNION => own.push(b),
                FLAT_ALT => own.push(if mode == Mode::Flat { b } else { a }),
                TEXT => {
                    column += c as usize;
                    if column > width {
                        return [0, 1, 3, node, column as u32];
                    }
                }
                HARDLINE if mode == Mode::Flat => return [0, 1, 2, node, column as u32],
                HARDLINE => return [0, 0, 5, node, 0],
                _ => return [0, 1, 1, node, column as u32],
            }
        }
    }

    /// For each node, read broken and read flat: whether it has neither columns nor a Fail or Hardline.
    fn plain(&self) -> Vec<[bool; 2]> {
        let mut plain: Vec<[bool; 2]> = Vec::new();
        for node in self.given.table.chunks_exact(4) {
            let of = |child: u32| plain[child as usize];
            let (a, b) = (node[1], node[2]);
            let own = match node[0] {
                NIL => [true; 2],
                APPEND => [of(a)[0] && of(b)[0], of(a)[1] && of(b)[1]],
                GROUP | NEST | ALIGN | ANNOTATED => of(a),
                UNION => of(b),
                FLAT_ALT => [of(a)[0], of(b)[1]],
                TEXT => [node[3] == 0; 2],
                _ => [false; 2],
            };
            plain.push(own);
        }
        plain
    }
}
