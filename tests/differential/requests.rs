//! The groups of requests answered and requests found: first known packets damaged at every byte and cut at every length, then
//! requests from the generator.

use crate::calls::{Find, Member, Respond};
use crate::cookies::{lent, member, output};
use crate::known::{self, unhex};
use crate::messages::request;
use crate::random::Random;
use crate::reference::{self, Carried, Reply, DISABLED, ENABLED, ENFORCED, OPTION_SIZE};
use crate::run::Run;
use crate::tally::{name, Table};

/// Every known packet, with every byte altered in several ways in turn, cut at every length, and with a byte more.
fn damaged(random: &mut Random) -> Vec<Vec<u8>> {
    let mut all = Vec::new();
    for packet in &known::PACKETS {
        let message = known::message(packet);
        for at in 0..message.len() {
            all.push(message[..at].to_vec());
            all.extend(others(random, message[at]).into_iter().map(|byte| altered(&message, at, byte)));
        }
        all.push([&message[..], &[0]].concat());
        all.push(message);
    }
    all
}

/// Values that mean something somewhere, and neighbours.
fn others(random: &mut Random, byte: u8) -> Vec<u8> {
    let near = [byte.wrapping_add(1), byte.wrapping_sub(1), byte ^ 0x80, byte ^ 1];
    let mut others = [&near[..], &[0, 8, 10, 24, 41, 63, 64, 191, 192, 255, random.byte()]].concat();
    others.sort();
    others.dedup();
    others.retain(|other| *other != byte);
    others
}

fn altered(message: &[u8], at: usize, byte: u8) -> Vec<u8> {
    let mut altered = message.to_vec();
    altered[at] = byte;
    altered
}

/// A member to which the known packets' cookie is good, or too old.
fn knowing_member(random: &mut Random) -> Member {
    Member {
        mode: random.pick(&[DISABLED, ENABLED, ENABLED, ENABLED, ENFORCED, ENFORCED, ENFORCED]),
        secrets: lent(random, unhex(known::SECRET)),
        clock: known::CLOCK + random.pick(&[0, 100, 1800, 1801, 4000]),
        address: lent(random, unhex(known::ADDRESS)),
    }
}

/// Lengths at the limits and next to them, where nothing else is wrong.
const LENGTHS: [(usize, u8); 4] = [(11, 3), (12, 201), (65_535, 0), (65_536, 3)];

fn length_table() -> Table {
    let rows =
        LENGTHS.map(|(length, number)| (length as i64, number.into(), format!("{} of {length} bytes", name(number))));
    Table::new("their lengths", rows)
}

fn count_length(lengths: &mut Table, message: &[u8], number: u8) {
    if LENGTHS.contains(&(message.len(), number)) {
        lengths.count(message.len() as i64);
    }
}

pub fn found(run: &Run) -> Result<Vec<Table>, String> {
    let group = "requests found";
    let mut table = Table::of_numbers(group, &[0, 3, 4, 5, 6, 7, 8, 9, 10, 201]);
    let mut lengths = length_table();
    let damaged = damaged(&mut run.random(group, u64::MAX));
    let cases = damaged.len() as u64 + run.count;
    for case in 0..cases {
        run.progress(group, case, cases);
        let random = &mut run.random(group, case);
        let message = match damaged.get(case as usize) {
            Some(message) => message.clone(),
            None => {
                let member = member(random);
                request(random, &member)
            }
        };
        let call = Find { message: lent(random, message) };
        let number = run.compare(group, case, &call)?.answer as u8;
        table.count(number);
        count_length(&mut lengths, &call.message, number);
    }
    Ok(vec![table, lengths])
}

pub fn answered(run: &Run) -> Result<Vec<Table>, String> {
    let group = "requests answered";
    let numbers: Vec<u8> = (1..=10).chain(101..=102).chain(200..=207).collect();
    let mut table = Table::of_numbers(group, &numbers);
    let (mut replies, mut reasons) = (reply_table(), reason_table());
    let damaged = damaged(&mut run.random(group, u64::MAX));
    let cases = damaged.len() as u64 + run.count;
    for case in 0..cases {
        run.progress(group, case, cases);
        let random = &mut run.random(group, case);
        let (member, message) = match damaged.get(case as usize) {
            Some(message) => (knowing_member(random), message.clone()),
            None => generated(random),
        };
        let call = Respond { member, message: lent(random, message), output: output(random, OPTION_SIZE) };
        let number = run.compare(group, case, &call)?.answer as u8;
        table.count(number);
        count_reply(&mut replies, &mut reasons, &call);
    }
    Ok(vec![table, replies, reasons])
}

fn generated(random: &mut Random) -> (Member, Vec<u8>) {
    let member = member(random);
    let message = request(random, &member);
    (member, message)
}

// The cells of document 01's table of replies, and the refusals' replies.

fn cell(mode: u32, number: u8, questions: usize, reply: Reply, carried: Carried) -> i64 {
    // A refusal's reply is the same in every mode; QDCOUNT matters for a client cookie alone in mode Enforced.
    let mode = if number >= 200 { mode } else { 0 };
    let questions = if number == 202 && mode == ENFORCED { questions } else { 0 };
    let number = if number >= 200 { number } else { 0 };
    i64::from(mode) << 32 | i64::from(number) << 24 | (questions as i64) << 16 | (reply as i64) << 8 | carried as i64
}

fn reply_table() -> Table {
    let mut rows = Vec::new();
    let mut row = |mode: u32, number: u8, questions: usize, reply: Reply, carried: Carried, what: &str| {
        let text = format!("{what}: {reply:?}, {carried:?}");
        rows.push((cell(mode, number, questions, reply, carried), number.into(), text));
    };
    row(0, 0, 0, Reply::CallersFault, Carried::None, "refused");
    row(0, 0, 0, Reply::NoReply, Carried::None, "refused");
    row(0, 0, 0, Reply::Formerr, Carried::None, "refused");
    row(0, 0, 0, Reply::Badvers, Carried::None, "refused");
    row(DISABLED, 200, 0, Reply::Serve, Carried::None, "Disabled");
    row(ENABLED, 201, 0, Reply::Serve, Carried::None, "Enabled");
    row(ENFORCED, 201, 0, Reply::Truncate, Carried::None, "Enforced");
    row(ENABLED, 202, 0, Reply::Serve, Carried::Fresh, "Enabled");
    row(ENFORCED, 202, 1, Reply::Badcookie, Carried::Fresh, "Enforced");
    row(ENFORCED, 202, 0, Reply::Serve, Carried::Fresh, "Enforced, QDCOUNT 0");
    for (mode, what) in [(ENABLED, "Enabled"), (ENFORCED, "Enforced")] {
        for number in 203..=205 {
            row(mode, number, 0, Reply::Badcookie, Carried::Fresh, what);
        }
        row(mode, 206, 0, Reply::Serve, Carried::Kept, what);
        row(mode, 206, 0, Reply::Serve, Carried::Fresh, what);
        row(mode, 207, 0, Reply::Serve, Carried::Fresh, what);
    }
    Table::new("replies to them", rows)
}

// Why a good cookie is kept or not.

type Reason = (Carried, &'static str, fn(&Respond, &[u8], i64) -> bool);

/// What the reply carries, a name, and whether it is so of the call, the body and the age.
const REASONS: [Reason; 9] = [
    (Carried::Kept, "0 seconds", |_, _, age| age == 0),
    (Carried::Kept, "1,800 seconds", |_, _, age| age == 1800),
    (Carried::Fresh, "1,801 seconds", |_, _, age| age == 1801),
    (Carried::Fresh, "-1 second", |_, _, age| age == -1),
    (Carried::Fresh, "one reserved byte set", |_, body, age| is_young(age) && reserved_set(body) == 1),
    (Carried::Fresh, "all reserved bytes set", |_, body, age| is_young(age) && reserved_set(body) == 3),
    (Carried::Kept, "under both secrets", |call, _, _| both_match(call)),
    (Carried::Kept, "a message of 65,535 bytes", |call, _, _| call.message.len() == 65_535),
    (Carried::Fresh, "an address of 16 bytes", |call, _, _| call.member.address.len() == 16),
];

fn is_young(age: i64) -> bool {
    (0..=1800).contains(&age)
}

fn reserved_set(body: &[u8]) -> usize {
    body[9..12].iter().filter(|byte| **byte != 0).count()
}

fn both_match(call: &Respond) -> bool {
    let secrets = &call.member.secrets;
    secrets.len() == 32 && secrets[..16] == secrets[16..]
}

fn reason_table() -> Table {
    let rows = REASONS.iter().enumerate();
    Table::new(
        "GOOD among them",
        rows.map(|(key, (carried, name, _))| (key as i64, 206, format!("{carried:?}: {name}"))),
    )
}

/// The tables of the replies and of the reasons.
fn count_reply(replies: &mut Table, reasons: &mut Table, call: &Respond) {
    let response = call.reference();
    replies.count(cell(call.member.mode, response.number, response.questions, response.reply, response.carried));
    if response.number != 206 {
        return;
    }
    let body =
        reference::find(&call.message).ok().and_then(|found| found.body).map_or(&[][..], |body| &call.message[body]);
    for (key, (carried, _, holds)) in REASONS.iter().enumerate() {
        if *carried == response.carried && holds(call, body, response.age) {
            reasons.count(key as i64);
        }
    }
}
