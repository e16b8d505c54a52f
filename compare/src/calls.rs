//! Calls at random: tables with the sizes, limits and rooms that reach every answer, each held against the model.

use crate::model::{self, Given, Run};
use crate::tables::{random_size, random_table, random_width, Random, Table};

pub const LIMIT: u32 = 1_000_000;
pub const ROOM: usize = 65_536;
pub const SLOTS: usize = 4096;
pub const WORK: usize = 16_384;

/// A call's own data; `Given` borrows from it.
#[derive(Clone, Debug)]
pub struct Call {
    pub table: Table,
    pub width: u32,
    pub limit: u32,
    pub room: usize,
    pub slots: usize,
    pub work: usize,
    /// words of report that a C caller lends
    pub report: usize,
}

impl Call {
    /// A call with all the room and steps that a sheet may have.
    pub fn roomy(table: Table, width: u32) -> Call {
        Call { table, width, limit: LIMIT, room: ROOM, slots: SLOTS, work: WORK, report: 5 }
    }

    pub fn given(&self) -> Given<'_> {
        Given {
            table: &self.table.words,
            text: &self.table.text,
            width: self.width,
            limit: self.limit,
            room: self.room,
            slots: self.slots,
            work: self.work,
        }
    }

    pub fn run(&self) -> Run {
        model::call(&self.given())
    }
}

/// A valid table, with a limit and rooms near what its run needs, so that 7, 8 and 9 come about as often as 0.
pub fn tight_call(random: &mut Random, nodes: usize, most_steps: u32) -> Call {
    let table = random_table(random, nodes);
    let mut call = Call::roomy(table, random_width(random));
    call.limit = most_steps;
    let free = call.run().report;
    call.room = (free.bytes.len() + random.below(6)).min(ROOM);
    call.slots = (free.events.len() + random.below(3)).min(SLOTS);
    match random.below(5) {
        0 => call.limit = random.below(free.steps as usize + 2) as u32,
        1 => call.room = random.below(free.bytes.len() + 2).min(ROOM),
        2 => call.slots = random.below(free.events.len() + 1),
        _ => {}
    }
    call.report = 5 + random.below(3);
    call
}

/// As `tight_call`, and often something is wrong with the table, the text or a size.
pub fn wild_call(random: &mut Random) -> Call {
    let nodes = random_size(random);
    let mut call = tight_call(random, nodes, 20_000);
    if random.one_in(3) {
        for _ in 0..1 + random.below(2) {
            spoil(random, &mut call);
        }
    }
    call
}

fn spoil(random: &mut Random, call: &mut Call) {
    let words = call.table.words.len();
    match random.below(16) {
        0 => call.table.words.truncate(random.below(words + 1)),
        1 => {
            let more = random.below(4 * 1025);
            call.table.words.extend(std::iter::repeat_n(0, more));
        }
        2 => {
            let filled = *random.of(b"x\n");
            call.table.text.resize(*random.of(&[0, 1, 65_536, 65_537, 70_000]), filled);
        }
        3 => call.width = *random.of(&[65_535, 65_536, u32::MAX]),
        4 => call.limit = *random.of(&[0, 100_000_000, 100_000_001, u32::MAX]),
        5 => call.room = *random.of(&[0, 1, 65_536, 65_537]),
        6 => call.slots = *random.of(&[0, 1, 4096, 4097]),
        7 => call.work = *random.of(&[0, 16_383, 16_384, 16_390]),
        8 => call.report = random.below(9),
        9 if !call.table.text.is_empty() => {
            let at = random.below(call.table.text.len());
            // a line feed is wrong in a Text, and right outside of every Text
            call.table.text[at] = if random.one_in(3) { b'\n' } else { random.draw() as u8 };
        }
        10 if words >= 4 => {
            let at = 4 * random.below(words / 4);
            call.table.words[at] = random.below(13) as u32;
        }
        _ if words > 0 => {
            let at = random.below(words);
            let n = (at / 4) as u32;
            let near = [
                n,
                n + 1,
                n.wrapping_sub(1),
                0,
                1,
                2,
                1000,
                1001,
                u32::MAX,
                random.below(12) as u32,
                call.table.text.len() as u32,
            ];
            call.table.words[at] = *random.of(&near);
        }
        _ => {}
    }
}
