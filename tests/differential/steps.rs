//! Steps for a ledger: most of them bring a rollover forward, and the others have something wrong about them.

use crate::random::Random;
use crate::reference_ledger::*;

/// How the engineers of one run behave.
pub struct Habits {
    /// The first step's time, about.
    pub begin: u64,
    /// How many of a hundred steps are a CANCEL.
    pub cancels: usize,
    /// How many of a hundred steps have something wrong.
    pub mistakes: usize,
}

impl Habits {
    pub fn new(random: &mut Random) -> Habits {
        let begin = match random.below(100) {
            0..=89 => random.pick(&[0, 1, 1000, 1_800_000_000, (1 << 32) - 2000]),
            // So late that a rollover can't always end.
            _ => LATEST - random.pick(&[0, 1, 3600, 3601, 4000, 20_000, 100_000]),
        };
        Habits { begin, cancels: random.pick(&[0, 0, 1, 5]), mistakes: random.pick(&[20, 40, 60]) }
    }
}

pub fn step(random: &mut Random, ledger: &Ledger, habits: &Habits) -> Step {
    let mut step = next(random, ledger, habits);
    if random.percent(habits.cancels) {
        step.kind = CANCEL;
    }
    // Several mistakes in one step, so that the order of the refusals matters. Most steps before START are one.
    let mistakes = if ledger.fleet.is_none() { 80 } else { habits.mistakes };
    let mut spoils = random.percent(mistakes);
    while spoils {
        spoil(random, ledger, &mut step);
        spoils = random.percent(30);
    }
    step
}

/// The step that brings the ledger forward.
fn next(random: &mut Random, ledger: &Ledger, habits: &Habits) -> Step {
    let pause = random.pick(&[0, 0, 0, 1, 2, 100]);
    let time = (ledger.last.unwrap_or(habits.begin) + pause).min(LATEST);
    let Some(fleet) = &ledger.fleet else {
        let member = if random.percent(50) { 1 + random.below(4) } else { random.pick(&[5, 8, 16, 20, 24, 31, 32]) };
        return Step { kind: START, member: member as u8, time, secret: secret(random, None) };
    };
    let Some(new) = fleet.new else {
        return Step { kind: OPEN, member: random.byte(), time, secret: secret(random, Some(fleet.current)) };
    };
    let kind = match fleet.stages.iter().min() {
        Some(0) => LEARN,
        Some(1) => SWITCH,
        _ => DROP,
    };
    let earliest = if kind == DROP { fleet.switched.map_or(0, |switched| switched + WAIT) } else { 0 };
    Step { kind, member: member_for(random, fleet, kind), time: time.max(earliest), secret: new }
}

/// One of the members at the stage from which this kind of step starts, if there is any.
fn member_for(random: &mut Random, fleet: &Fleet, kind: u8) -> u8 {
    let there: Vec<usize> = (0..fleet.stages.len()).filter(|member| fleet.stages[*member] + LEARN == kind).collect();
    if there.is_empty() {
        random.below(fleet.stages.len()) as u8
    } else {
        random.pick(&there) as u8
    }
}

fn secret(random: &mut Random, current: Option<Secret>) -> Secret {
    match random.below(100) {
        0..=5 => [0; 16],
        6..=8 => [255; 16],
        9..=20 => current.map_or([0; 16], |current| with_bit(current, 127)),
        _ => random.secret(),
    }
}

fn with_bit(mut secret: Secret, bit: usize) -> Secret {
    secret[bit / 8] ^= 1 << (bit % 8);
    secret
}

fn spoil(random: &mut Random, ledger: &Ledger, step: &mut Step) {
    match random.below(9) {
        0 => step.kind = random.pick(&[0, 1, 2, 3, 4, 5, 6, 7, 128, 255]),
        1 => step.member = other_member(random, ledger),
        2 => step.time = earlier(random, ledger),
        3 => step.time = random.pick(&[LATEST + 1, LATEST + 2, 1 << 49, 1 << 63, u64::MAX]),
        4 => step.time = step.time.saturating_add(random.pick(&[3600, 3601, 1 << 32, 1 << 40])),
        5 => step.secret = other_secret(random, ledger, step.secret),
        6 => early_drop(random, ledger, step),
        _ => out_of_turn(random, ledger, step),
    }
}

fn other_member(random: &mut Random, ledger: &Ledger) -> u8 {
    let count = ledger.fleet.as_ref().map_or(0, |fleet| fleet.stages.len() as u8);
    random.pick(&[0, 1, count, count.wrapping_sub(1), 31, 32, 33, 128, 255])
}

fn earlier(random: &mut Random, ledger: &Ledger) -> u64 {
    ledger.last.unwrap_or(0).saturating_sub(random.pick(&[1, 1, 2, 3601, 1 << 40]))
}

fn other_secret(random: &mut Random, ledger: &Ledger, secret: Secret) -> Secret {
    let current = ledger.fleet.as_ref().map_or(secret, |fleet| fleet.current);
    match random.below(4) {
        0 => current,
        1 => with_bit(secret, 120 + random.below(8)),
        2 => with_bit(secret, random.below(128)),
        _ => random.secret(),
    }
}

/// A DROP on either side of the wait.
fn early_drop(random: &mut Random, ledger: &Ledger, step: &mut Step) {
    let Some(fleet) = &ledger.fleet else { return };
    let Some(switched) = fleet.switched else { return };
    step.kind = DROP;
    step.member = member_for(random, fleet, DROP);
    step.time = switched + random.pick(&[0, 3599, 3600, 3600, 3601]);
}

/// A step whose member is at the right stage, whatever the others are at; or a step before START.
fn out_of_turn(random: &mut Random, ledger: &Ledger, step: &mut Step) {
    step.kind = random.pick(&[OPEN, LEARN, SWITCH, SWITCH, DROP, DROP]);
    let Some(fleet) = &ledger.fleet else { return };
    step.member = member_for(random, fleet, step.kind);
}
