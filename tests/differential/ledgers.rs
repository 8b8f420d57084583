//! The groups of ledgers: fresh ones; runs of steps, with every member's secrets and the line after each; and states that are damaged.

use crate::calls::{hex, Call, Fresh, Got, Line, Offer, Secrets};
use crate::cookies::{lent, output};
use crate::library::Bytes;
use crate::random::Random;
use crate::reference_ledger::*;
use crate::run::Run;
use crate::steps::{self, Habits};
use crate::tally::{step_name, Table};

const GROUP: &str = "ledger steps";
const KINDS: [&str; 7] = ["START", "OPEN", "LEARN", "SWITCH", "DROP", "CANCEL", "no kind"];

/// Bytes that are not as many as they should be.
fn resized(random: &mut Random, bytes: &[u8]) -> Bytes {
    let size = match random.below(4) {
        0 => 0,
        1 => bytes.len() - 1,
        2 => bytes.len() + 1,
        _ => random.below(bytes.len()),
    };
    let mut resized = bytes.to_vec();
    resized.resize(size, 0);
    lent(random, resized)
}

pub fn fresh(run: &Run) -> Result<Vec<Table>, String> {
    let group = "fresh ledgers";
    let mut table = Table::of_numbers(group, &[0, 104]);
    for case in 0..run.count {
        run.progress(group, case, run.count);
        let random = &mut run.random(group, case);
        let garbage = random.bytes(LEDGER_SIZE);
        let state = if random.percent(5) { resized(random, &garbage) } else { lent(random, garbage) };
        let got = run.compare(group, case, &Fresh { state })?;
        table.count(got.answer as i64);
        if got.answer == 0 {
            let ledger = &Ledger::default();
            let state = Bytes::new(got.output);
            let member = random.pick(&[0, 1, 32, u32::MAX]);
            run.compare(group, case, &Secrets { ledger, state: state.clone(), member, output: output(random, 32) })?;
            let record = Bytes::new(vec![0; RECORD_SIZE]);
            let line = Line { ledger, state, number: 1, record, answer: 0, output: output(random, LINE_ROOM) };
            run.compare(group, case, &line)?;
        }
    }
    Ok(vec![table])
}

struct Tables {
    steps: Table,
    kinds: Table,
    sides: Table,
    secrets: Table,
    stages: Table,
    lines: Table,
}

impl Tables {
    fn new() -> Tables {
        Tables {
            steps: step_table(),
            kinds: kind_table(),
            sides: side_table(),
            secrets: secrets_table(),
            stages: stage_table(),
            lines: line_table(),
        }
    }

    fn count_step(&mut self, before: &Ledger, step: &Step, answer: u8) {
        self.steps.count(answer);
        self.kinds.count(kind_key(step.kind, answer));
        for (key, (side_answer, _, holds)) in SIDES.iter().enumerate() {
            if *side_answer == answer && holds(before, step) {
                self.sides.count(key as i64);
            }
        }
    }

    fn all(self) -> Vec<Table> {
        vec![self.steps, self.kinds, self.sides, self.secrets, self.stages, self.lines]
    }
}

fn step_table() -> Table {
    let answers = (0..=10).chain(104..=105);
    Table::new(GROUP, answers.map(|answer| (answer.into(), answer.into(), step_name(answer).to_string())))
}

/// Every answer that document 01 has for a kind, and rollovers that close.
fn kind_table() -> Table {
    let answers: [&[u8]; 7] = [
        &[0, 2, 3, 4, 7],
        &[0, 2, 3, 4, 5, 6],
        &[0, 2, 3, 5, 6, 7, 8],
        &[0, 2, 3, 5, 6, 7, 8, 9],
        &[0, 2, 3, 5, 6, 7, 8, 9, 10],
        &[0, 2, 3, 5, 6, 9],
        &[1],
    ];
    let mut rows = Vec::new();
    for (kind, answers) in answers.iter().enumerate() {
        for answer in *answers {
            let name = format!("{}, {}", KINDS[kind], step_name(*answer));
            rows.push((kind_key(kind as u8, *answer), (*answer).into(), name));
        }
    }
    Table::new("the same by kind", rows)
}

type Side = (u8, &'static str, fn(&Ledger, &Step) -> bool);

/// Both sides of each of a step's lines: the answer, a name, and whether the step is there, to the ledger before it.
const SIDES: [Side; 15] = [
    (7, "START of 0 members", |_, step| step.kind == START && step.member == 0),
    (0, "START of 1 member", |_, step| step.kind == START && step.member == 1),
    (0, "START of 32 members", |_, step| step.kind == START && step.member == 32),
    (7, "START of 33 members", |_, step| step.kind == START && step.member == 33),
    (0, "at the latest time", |_, step| step.time == LATEST),
    (2, "a second over it", |_, step| step.time == LATEST + 1),
    (0, "in the last step's second", |ledger, step| ledger.last == Some(step.time)),
    (3, "a second before it", |ledger, step| ledger.last.is_some_and(|last| last == step.time + 1)),
    (6, "a secret right but for its last byte", |ledger, step| {
        ledger.fleet.as_ref().and_then(|fleet| fleet.new).is_some_and(|new| new[..15] == step.secret[..15])
    }),
    (10, "DROP 3,600 seconds after SWITCH", |ledger, step| since_switch(ledger, step) == Some(3600)),
    (0, "DROP 3,601 seconds after SWITCH", |ledger, step| since_switch(ledger, step) == Some(3601)),
    (0, "the last DROP of 1 member", |ledger, step| last_drop_of(ledger, step) == 1),
    (0, "the last DROP of 2 to 31 members", |ledger, step| (2..32).contains(&last_drop_of(ledger, step))),
    (0, "the last DROP of 32 members", |ledger, step| last_drop_of(ledger, step) == 32),
    (0, "OPEN after a rollover", |ledger, step| {
        step.kind == OPEN && ledger.fleet.as_ref().is_some_and(|fleet| fleet.switched.is_some())
    }),
];

/// How long before this DROP the last SWITCH was.
fn since_switch(ledger: &Ledger, step: &Step) -> Option<u64> {
    let switched = ledger.fleet.as_ref().filter(|_| step.kind == DROP)?.switched?;
    step.time.checked_sub(switched)
}

/// How many members the fleet has if this is the DROP of the last of them, otherwise 0.
fn last_drop_of(ledger: &Ledger, step: &Step) -> usize {
    let Some(fleet) = ledger.fleet.as_ref().filter(|_| step.kind == DROP) else { return 0 };
    let last = fleet.stages.iter().filter(|stage| **stage != 3).count() == 1;
    if last {
        fleet.stages.len()
    } else {
        0
    }
}

fn side_table() -> Table {
    let rows = SIDES.iter().enumerate();
    Table::new("steps on a line's sides", rows.map(|(key, side)| (key as i64, side.0.into(), side.1.to_string())))
}

fn kind_key(kind: u8, answer: u8) -> i64 {
    i64::from(kind.min(6)) * 1000 + i64::from(answer)
}

fn secrets_table() -> Table {
    let rows = [
        (16 << 8, "DONE, one secret"),
        (32 << 8, "DONE, two secrets"),
        (104, "WRONG_LEDGER"),
        (107, "NO_ROOM"),
        (108, "NO_SECRETS"),
    ];
    Table::new("secrets", rows.map(|(answer, name)| (answer, answer & 0xff, name.to_string())))
}

fn stage_table() -> Table {
    let names = [
        (0, 0, "at stage 0"),
        (1, 0, "at stage 1"),
        (2, 0, "at stage 2"),
        (3, 0, "at stage 3"),
        (BEFORE_START, 108, "before START"),
        (NO_MEMBER, 108, "no member's number"),
    ];
    Table::new("the same by stage", names.map(|(key, answer, name)| (key, answer, name.to_string())))
}

const BEFORE_START: i64 = 4;
const NO_MEMBER: i64 = 5;

/// Members are never at more than two stages, so that no line has more than 40 bytes.
fn line_table() -> Table {
    let rows = [
        (SHORTEST << 8, "DONE, 16 bytes, the shortest"),
        (BETWEEN << 8, "DONE, 17 to 39 bytes"),
        (LONGEST << 8, "DONE, 40 bytes, the longest"),
        (104, "WRONG_LEDGER"),
        (105, "WRONG_RECORD"),
        (106, "WRONG_ANSWER"),
        (107, "NO_ROOM"),
    ];
    Table::new("lines", rows.map(|(answer, name)| (answer, answer & 0xff, name.to_string())))
}

const SHORTEST: i64 = 16;
const BETWEEN: i64 = 17;
const LONGEST: i64 = 40;

pub fn runs(run: &Run) -> Result<Vec<Table>, String> {
    let mut tables = Tables::new();
    let mut case = 0;
    while tables.steps.total() < run.count {
        run.progress(GROUP, tables.steps.total(), run.count);
        Journal::run(run, case, &mut tables)?;
        case += 1;
    }
    Ok(tables.all())
}

/// States that some runs went through.
pub fn states(run: &Run) -> Result<Vec<Vec<u8>>, String> {
    let mut states = Vec::new();
    for case in 0..50 {
        states.extend(Journal::run(run, case, &mut Tables::new())?);
    }
    Ok(states)
}

/// One run of steps from a fresh ledger.
struct Journal<'a> {
    run: &'a Run,
    case: u64,
    tables: &'a mut Tables,
    ledger: Ledger,
    state: Vec<u8>,
    records: Vec<Vec<u8>>,
    /// The states after the accepted steps.
    states: Vec<Vec<u8>>,
}

impl Journal<'_> {
    /// A whole run. Answers the states that it went through.
    fn run(run: &Run, case: u64, tables: &mut Tables) -> Result<Vec<Vec<u8>>, String> {
        let random = &mut run.random(GROUP, case);
        let garbage = Bytes::new(random.bytes(LEDGER_SIZE));
        let state = run.compare(GROUP, case, &Fresh { state: garbage })?.output;
        let ledger = Ledger::default();
        let states = vec![state.clone()];
        let mut journal = Journal { run, case, tables, ledger, state, records: Vec::new(), states };
        let habits = Habits::new(random);
        let length = if random.percent(50) { random.below(40) } else { random.below(600) };
        for _ in 0..length {
            journal.advance(random, &habits)?;
        }
        Ok(journal.states)
    }

    /// A step offered, and then everything asked of the ledger.
    fn advance(&mut self, random: &mut Random, habits: &Habits) -> Result<(), String> {
        let step = steps::step(random, &self.ledger, habits);
        let spare = if random.percent(50) { [0; 6] } else { [random.byte(); 6] };
        let record = step.record(spare).to_vec();
        if random.percent(4) {
            self.offer_wrong_sizes(random, &record)?;
        }
        let answer = self.offer(random, record.clone(), &step)?;
        self.ask_secrets(random)?;
        self.ask_lines(random, record, answer)
    }

    fn compare(&self, call: &impl Call) -> Result<Got, String> {
        self.run.compare(GROUP, self.case, call).map_err(|report| {
            let records: Vec<String> = self.records.iter().map(|record| hex(record)).collect();
            let steps = self.tables.steps.total();
            format!(
                "{report}\n  at step {steps} in all; in this run after these, from a fresh ledger:\n{}",
                records.join("\n")
            )
        })
    }

    /// The state as it is lent: always another copy, as it can't matter where it stands.
    fn lent_state(&self, random: &mut Random) -> Bytes {
        lent(random, self.state.clone())
    }

    fn offer(&mut self, random: &mut Random, record: Vec<u8>, step: &Step) -> Result<u8, String> {
        let offer =
            Offer { ledger: &self.ledger, state: self.lent_state(random), record: lent(random, record.clone()) };
        let got = self.compare(&offer)?;
        let answer = got.answer as u8;
        self.tables.count_step(&self.ledger, step, answer);
        self.ledger.step(step);
        self.state = got.output;
        self.records.push(record);
        if answer == 0 {
            self.states.push(self.state.clone());
        }
        Ok(answer)
    }

    fn offer_wrong_sizes(&mut self, random: &mut Random, record: &[u8]) -> Result<(), String> {
        let state = if random.percent(50) { resized(random, &self.state) } else { self.lent_state(random) };
        let offer = Offer { ledger: &self.ledger, state, record: resized(random, record) };
        let answer = self.compare(&offer)?.answer as u8;
        self.tables.steps.count(answer);
        Ok(())
    }

    /// Every member's secrets, and those of a number or two that may be no member's.
    fn ask_secrets(&mut self, random: &mut Random) -> Result<(), String> {
        let members = self.ledger.fleet.as_ref().map_or(0, |fleet| fleet.stages.len() as u32);
        let strange = random.pick(&[members + 1, 31, 32, 33, 255, 256, 257, 1 << 16, 1 << 31, u32::MAX]);
        for member in (0..=members).chain([strange]) {
            self.ask_secrets_of(random, member)?;
        }
        Ok(())
    }

    fn ask_secrets_of(&mut self, random: &mut Random, member: u32) -> Result<(), String> {
        let state = if random.percent(1) { resized(random, &self.state) } else { self.lent_state(random) };
        let call = Secrets { ledger: &self.ledger, state, member, output: output(random, SECRETS_ROOM) };
        let answer = self.compare(&call)?.answer;
        self.tables.secrets.count(answer as i64);
        if ![104, 107].contains(&answer) {
            let stage = match &self.ledger.fleet {
                None => BEFORE_START,
                Some(fleet) => fleet.stages.get(member as usize).map_or(NO_MEMBER, |stage| (*stage).into()),
            };
            self.tables.stages.count(stage);
        }
        Ok(())
    }

    /// The line of the step, and one of any numbers.
    fn ask_lines(&mut self, random: &mut Random, record: Vec<u8>, answer: u8) -> Result<(), String> {
        self.ask_line(random, self.records.len() as u64, record, answer.into())?;
        let digits = random.below(20) as u32;
        let number = match random.below(3) {
            0 => 10u64.pow(digits) - random.below(2) as u64,
            1 => u64::MAX - random.below(2) as u64,
            _ => random.next() >> random.below(64),
        };
        let answer = if random.percent(5) {
            random.pick(&[11, 104, 105, 255, 256, 1 << 16, u32::MAX])
        } else {
            random.below(11) as u32
        };
        let record = random.bytes(RECORD_SIZE);
        self.ask_line(random, number, record, answer)
    }

    fn ask_line(&mut self, random: &mut Random, number: u64, record: Vec<u8>, answer: u32) -> Result<(), String> {
        let state = if random.percent(2) { resized(random, &self.state) } else { self.lent_state(random) };
        let record = if random.percent(2) { resized(random, &record) } else { lent(random, record) };
        let call = Line { ledger: &self.ledger, state, number, record, answer, output: output(random, LINE_ROOM) };
        let answer = self.compare(&call)?.answer as i64;
        let between = answer & 0xff == 0 && (BETWEEN..LONGEST).contains(&(answer >> 8));
        self.tables.lines.count(if between { BETWEEN << 8 } else { answer });
        Ok(())
    }
}
