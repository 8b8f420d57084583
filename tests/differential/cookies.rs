//! The groups of hashes, verdicts and options.

use crate::calls::{Hash, Judge, Make, Member};
use crate::library::Bytes;
use crate::messages::{body, AGES};
use crate::random::Random;
use crate::reference;
use crate::run::Run;
use crate::tally::Table;

pub fn lent(random: &mut Random, bytes: Vec<u8>) -> Bytes {
    let skipped = if random.percent(20) { 1 + random.below(15) } else { 0 };
    Bytes { bytes, null: random.percent(50), skipped }
}

/// Random bytes, mostly of one of these sizes, otherwise of any size up to the longest.
pub fn sized(random: &mut Random, sizes: &[usize], longest: usize) -> Bytes {
    let size = if random.percent(97) { random.pick(sizes) } else { random.below(longest + 1) };
    let bytes = random.bytes(size);
    lent(random, bytes)
}

/// An output of what is needed, or more, or sometimes less.
pub fn output(random: &mut Random, needed: usize) -> Bytes {
    let size = match random.below(100) {
        0..=2 => random.below(needed),
        3..=40 => needed,
        _ => needed + random.below(40),
    };
    let bytes = random.bytes(size);
    lent(random, bytes)
}

pub fn member(random: &mut Random) -> Member {
    let mode = match random.below(100) {
        0..=7 => reference::DISABLED,
        8..=52 => reference::ENABLED,
        53..=97 => reference::ENFORCED,
        _ => random.pick(&[3, 4, 255, 256, 257, 258, 0x1_0001, 1 << 31, u32::MAX]),
    };
    Member { mode, secrets: secrets(random), clock: clock(random), address: sized(random, &[4, 4, 16], 20) }
}

fn secrets(random: &mut Random) -> Bytes {
    let secrets = sized(random, &[16, 32, 32], 40);
    let mut bytes = secrets.to_vec();
    if bytes.len() == 32 && random.percent(10) {
        // Both the same, or but for one bit of the last byte.
        bytes.copy_within(..16, 16);
        bytes[31] ^= random.pick(&[0, 1]);
    }
    lent(random, bytes)
}

fn clock(random: &mut Random) -> u32 {
    let near = random.below(8000) as u32;
    match random.below(100) {
        0..=39 => random.next() as u32,
        40..=69 => near.wrapping_sub(4000),
        70..=79 => near.wrapping_sub(4000).wrapping_add(1 << 31),
        _ => random.pick(&[0, 1, 299, 300, 301, 3599, 3600, 3601, (1 << 31) - 1, 1 << 31, (1 << 31) + 1, u32::MAX]),
    }
}

pub fn hashes(run: &Run) -> Result<Vec<Table>, String> {
    let group = "hashes";
    let mut table = Table::of_numbers(group, &[0, 102, 107]);
    for case in 0..run.count {
        run.progress(group, case, run.count);
        let random = &mut run.random(group, case);
        let length = match random.below(1000) {
            0 => random.below(70_000),
            1..=99 => random.below(600),
            100..=499 => random.pick(&[20, 32]),
            _ => random.below(65),
        };
        let message = random.bytes(length);
        let call = Hash { secret: sized(random, &[16], 40), message: lent(random, message), output: output(random, 8) };
        table.count(run.compare(group, case, &call)?.answer as i64);
    }
    Ok(vec![table])
}

/// The ages of cookies whose hash is right.
pub struct Ages(Table);

impl Ages {
    pub fn new() -> Ages {
        let edges = AGES.map(|age| (age, age, "seconds".to_string()));
        let wrapped = (WRAPPED, 0, "or more, and the clock below the stamp".to_string());
        let ahead = (AHEAD, -300, "to -1, and the clock above the stamp".to_string());
        Ages(Table::new("ages of cookies with a right hash", edges.into_iter().chain([wrapped, ahead])))
    }

    pub fn count(&mut self, number: u8, clock: u32, body: &[u8]) {
        if number < 205 {
            return;
        }
        let timestamp = reference::timestamp(body);
        let age = reference::age(clock, timestamp);
        self.0.count_if_row(age);
        if (0..=3600).contains(&age) && clock < timestamp {
            self.0.count(WRAPPED);
        }
        if (-300..0).contains(&age) && clock > timestamp {
            self.0.count(AHEAD);
        }
    }

    pub fn table(self) -> Table {
        self.0
    }
}

// Keys that are no ages.
const WRAPPED: i64 = 1 << 40;
const AHEAD: i64 = 1 << 41;

/// Legal and illegal lengths of a body next to each other, and the answer where nothing else is wrong.
const BODIES: [(usize, u8); 10] =
    [(0, 10), (7, 10), (8, 202), (9, 10), (15, 10), (16, 203), (23, 203), (25, 203), (40, 203), (41, 10)];

fn body_table() -> Table {
    let rows = BODIES.map(|(length, number)| (length as i64, number.into(), format!("body of {length} bytes")));
    Table::new("their bodies' lengths", rows)
}

pub fn verdicts(run: &Run) -> Result<Vec<Table>, String> {
    let group = "verdicts";
    let mut table = Table::of_numbers(group, &[2, 10, 101, 102, 200, 202, 203, 204, 205, 206, 207]);
    let mut ages = Ages::new();
    let mut bodies = body_table();
    for case in 0..run.count {
        run.progress(group, case, run.count);
        let random = &mut run.random(group, case);
        let member = member(random);
        let body = body(random, &member);
        let call = Judge { member, body: lent(random, body) };
        let number = run.compare(group, case, &call)?.answer as u8;
        table.count(number);
        ages.count(number, call.member.clock, &call.body);
        if BODIES.contains(&(call.body.len(), number)) {
            bodies.count(call.body.len() as i64);
        }
    }
    Ok(vec![table, bodies, ages.table()])
}

pub fn options(run: &Run) -> Result<Vec<Table>, String> {
    let group = "options made";
    let mut table = Table::of_numbers(group, &[0, 1, 2, 102, 103]);
    for case in 0..run.count {
        run.progress(group, case, run.count);
        let random = &mut run.random(group, case);
        let call = Make {
            member: member(random),
            client: sized(random, &[8], 12),
            output: output(random, reference::OPTION_SIZE),
        };
        table.count(run.compare(group, case, &call)?.answer as i64);
    }
    Ok(vec![table])
}
