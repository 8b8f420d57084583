//! What document 01 and RFC 9018 say, written down from them a second time and as plainly as can be: no speed is wanted here, and
//! nothing is shared with the library. The hash is the standard library's SipHash-2-4, which is by other hands.

use std::hash::Hasher;
use std::ops::Range;

pub const DISABLED: u32 = 0;
pub const ENABLED: u32 = 1;
pub const ENFORCED: u32 = 2;

pub const OPTION_SIZE: usize = 28;
pub const ADDRESS_SIZES: [usize; 2] = [4, 16];

#[allow(deprecated)]
pub fn hash(secret: &[u8], message: &[u8]) -> [u8; 8] {
    let word = |at: usize| u64::from_le_bytes(secret[at..at + 8].try_into().unwrap());
    let mut hasher = std::hash::SipHasher::new_with_keys(word(0), word(8));
    hasher.write(message);
    hasher.finish().to_le_bytes()
}

/// The hash of a server cookie that starts with these eight bytes.
pub fn cookie_hash(secret: &[u8], client: &[u8], head: &[u8], address: &[u8]) -> [u8; 8] {
    hash(secret, &[client, head, address].concat())
}

// Reading a request.

pub struct Found {
    pub questions: usize,
    pub body: Option<Range<usize>>,
}

struct Record {
    section: usize,
    owner_is_root: bool,
    kind: usize,
    version: u8,
    data: Range<usize>,
}

fn number(bytes: &[u8], at: usize) -> usize {
    usize::from(bytes[at]) << 8 | usize::from(bytes[at + 1])
}

/// Checks 3 to 10.
pub fn find(message: &[u8]) -> Result<Found, u8> {
    check_header(message)?;
    let counts = [4, 6, 8, 10].map(|at| number(message, at));
    let questions = counts[0];
    if questions > 1 {
        return Err(5);
    }
    let records = records(message, counts).ok_or(6)?;
    let opts: Vec<&Record> = records.iter().filter(|record| record.kind == 41).collect();
    if opts.len() > 1 || opts.iter().any(|opt| opt.section != 3 || !opt.owner_is_root) {
        return Err(7);
    }
    let Some(opt) = opts.first() else { return Ok(Found { questions, body: None }) };
    if opt.version != 0 {
        return Err(8);
    }
    let options = options(message, opt.data.clone()).ok_or(9)?;
    let body = options.into_iter().find(|(code, _)| *code == 10).map(|(_, body)| body);
    if body.as_ref().is_some_and(|body| !is_legal(body.len())) {
        return Err(10);
    }
    Ok(Found { questions, body })
}

/// Checks 3 and 4, which mode Disabled has too.
fn check_header(message: &[u8]) -> Result<(), u8> {
    if message.len() < 12 || message.len() > 65_535 {
        return Err(3);
    }
    if message[2] >= 128 {
        return Err(4);
    }
    Ok(())
}

/// Every record of the message, or none where any part of the message is malformed.
fn records(message: &[u8], counts: [usize; 4]) -> Option<Vec<Record>> {
    let mut records = Vec::new();
    let mut at = 12;
    for _ in 0..counts[0] {
        at = within(message, name_end(message, at)? + 4)?;
    }
    for section in 1..=3 {
        for _ in 0..counts[section] {
            let fields = name_end(message, at)?;
            let start = within(message, fields + 10)?;
            let end = within(message, start + number(message, fields + 8))?;
            records.push(Record {
                section,
                owner_is_root: message[at] == 0,
                kind: number(message, fields),
                version: message[fields + 5],
                data: start..end,
            });
            at = end;
        }
    }
    (at == message.len()).then_some(records)
}

fn within(message: &[u8], end: usize) -> Option<usize> {
    (end <= message.len()).then_some(end)
}

fn name_end(message: &[u8], start: usize) -> Option<usize> {
    let mut at = start;
    loop {
        match *message.get(at)? {
            0 => return Some(at + 1),
            length @ 1..=63 => at += 1 + usize::from(length),
            64..=191 => return None,
            192..=255 => return within(message, at + 2),
        }
    }
}

/// The options of an OPT's data: the code and where the body stands.
fn options(message: &[u8], data: Range<usize>) -> Option<Vec<(usize, Range<usize>)>> {
    let mut options = Vec::new();
    let mut at = data.start;
    while at < data.end {
        let start = at + 4;
        if start > data.end {
            return None;
        }
        let end = start + number(message, at + 2);
        if end > data.end {
            return None;
        }
        options.push((number(message, at), start..end));
        at = end;
    }
    Some(options)
}

fn is_legal(body_length: usize) -> bool {
    body_length == 8 || (16..=40).contains(&body_length)
}

// Judging a cookie.

#[derive(Clone, Copy, PartialEq, Debug)]
pub enum Verdict {
    Ignored,
    Absent,
    ClientOnly,
    BadMethod,
    BadHash,
    BadTime,
    Good { age: i64 },
    GoodOther { age: i64 },
}

impl Verdict {
    pub fn number(self) -> u8 {
        match self {
            Verdict::Ignored => 200,
            Verdict::Absent => 201,
            Verdict::ClientOnly => 202,
            Verdict::BadMethod => 203,
            Verdict::BadHash => 204,
            Verdict::BadTime => 205,
            Verdict::Good { .. } => 206,
            Verdict::GoodOther { .. } => 207,
        }
    }

    pub fn age(self) -> i64 {
        match self {
            Verdict::Good { age } | Verdict::GoodOther { age } => age,
            _ => 0,
        }
    }
}

/// Clock less timestamp modulo 2^32, less 2^32 if that is 2^31 or more.
pub fn age(clock: u32, timestamp: u32) -> i64 {
    let difference = (i64::from(clock) - i64::from(timestamp)).rem_euclid(1 << 32);
    if difference >= 1 << 31 {
        difference - (1 << 32)
    } else {
        difference
    }
}

pub fn timestamp(body: &[u8]) -> u32 {
    u32::from_be_bytes(body[12..16].try_into().unwrap())
}

/// The verdict on a body of a legal length, outside mode Disabled.
pub fn verdict(secrets: &[u8], clock: u32, address: &[u8], body: &[u8]) -> Verdict {
    let (client, server) = body.split_at(8);
    if server.is_empty() {
        return Verdict::ClientOnly;
    }
    if server.len() != 16 || server[0] != 1 {
        return Verdict::BadMethod;
    }
    let Some(matched) =
        secrets.chunks(16).position(|secret| cookie_hash(secret, client, &server[..8], address) == server[8..])
    else {
        return Verdict::BadHash;
    };
    let age = age(clock, timestamp(body));
    match matched {
        _ if !(-300..=3600).contains(&age) => Verdict::BadTime,
        0 => Verdict::Good { age },
        _ => Verdict::GoodOther { age },
    }
}

// The functions of the header. A refusal is an Err.

fn check_mode(mode: u32) -> Result<(), u8> {
    if mode > ENFORCED {
        Err(101)
    } else {
        Ok(())
    }
}

fn check_secrets(secrets: &[u8]) -> Result<(), u8> {
    if secrets.len() != 16 && secrets.len() != 32 {
        Err(102)
    } else {
        Ok(())
    }
}

fn check_output(output_length: usize) -> Result<(), u8> {
    if output_length < OPTION_SIZE {
        Err(1)
    } else {
        Ok(())
    }
}

fn check_address(address: &[u8]) -> Result<(), u8> {
    if ADDRESS_SIZES.contains(&address.len()) {
        Ok(())
    } else {
        Err(2)
    }
}

pub fn siphash24(secret: &[u8], message: &[u8], output_length: usize) -> Result<[u8; 8], u8> {
    if secret.len() != 16 {
        return Err(102);
    }
    if output_length < 8 {
        return Err(107);
    }
    Ok(hash(secret, message))
}

pub fn judge(mode: u32, secrets: &[u8], clock: u32, address: &[u8], body: &[u8]) -> Result<Verdict, u8> {
    check_mode(mode)?;
    check_secrets(secrets)?;
    check_address(address)?;
    if mode == DISABLED {
        return Ok(Verdict::Ignored);
    }
    if !is_legal(body.len()) {
        return Err(10);
    }
    Ok(verdict(secrets, clock, address, body))
}

pub fn make(
    secrets: &[u8],
    clock: u32,
    address: &[u8],
    client: &[u8],
    output_length: usize,
) -> Result<[u8; OPTION_SIZE], u8> {
    check_secrets(secrets)?;
    if client.len() != 8 {
        return Err(103);
    }
    check_output(output_length)?;
    check_address(address)?;
    Ok(fresh(secrets, clock, address, client))
}

fn fresh(secrets: &[u8], clock: u32, address: &[u8], client: &[u8]) -> [u8; OPTION_SIZE] {
    let head = [&[1, 0, 0, 0], &clock.to_be_bytes()[..]].concat();
    let hash = cookie_hash(&secrets[..16], client, &head, address);
    option(&[client, &head, &hash].concat())
}

fn option(body: &[u8]) -> [u8; OPTION_SIZE] {
    [&[0, 10, 0, 24], body].concat().try_into().unwrap()
}

/// What the reply is.
#[derive(Clone, Copy, PartialEq, Debug)]
pub enum Reply {
    Serve = 0,
    Formerr = 1,
    Badvers = 16,
    Badcookie = 23,
    Truncate = 128,
    NoReply = 129,
    CallersFault = 130,
}

/// Which option it carries.
#[derive(Clone, Copy, PartialEq, Debug)]
pub enum Carried {
    None = 0,
    Fresh = 1,
    Kept = 2,
}

pub struct Response {
    pub number: u8,
    pub reply: Reply,
    pub carried: Carried,
    pub age: i64,
    pub option: Option<[u8; OPTION_SIZE]>,
    /// QDCOUNT, for the tally.
    pub questions: usize,
}

pub fn respond(
    mode: u32,
    secrets: &[u8],
    clock: u32,
    address: &[u8],
    message: &[u8],
    output_length: usize,
) -> Response {
    match read(mode, secrets, clock, address, message, output_length) {
        Err(number) => refused(number),
        Ok((verdict, questions, body)) => {
            let (reply, carried) = reply(mode, verdict, questions, body);
            Response {
                number: verdict.number(),
                reply,
                carried,
                age: verdict.age(),
                option: match carried {
                    Carried::None => None,
                    Carried::Fresh => Some(fresh(secrets, clock, address, &body[..8])),
                    Carried::Kept => Some(option(body)),
                },
                questions,
            }
        }
    }
}

/// The verdict, QDCOUNT and the body.
fn read<'a>(
    mode: u32,
    secrets: &[u8],
    clock: u32,
    address: &[u8],
    message: &'a [u8],
    output_length: usize,
) -> Result<(Verdict, usize, &'a [u8]), u8> {
    check_mode(mode)?;
    check_secrets(secrets)?;
    check_output(output_length)?;
    check_address(address)?;
    if mode == DISABLED {
        check_header(message)?;
        return Ok((Verdict::Ignored, 0, &[]));
    }
    let found = find(message)?;
    let Some(body) = found.body else { return Ok((Verdict::Absent, found.questions, &[])) };
    let body = &message[body];
    Ok((verdict(secrets, clock, address, body), found.questions, body))
}

fn refused(number: u8) -> Response {
    let reply = match number {
        3 | 4 => Reply::NoReply,
        5 | 6 | 7 | 9 | 10 => Reply::Formerr,
        8 => Reply::Badvers,
        _ => Reply::CallersFault,
    };
    Response { number, reply, carried: Carried::None, age: 0, option: None, questions: 0 }
}

fn reply(mode: u32, verdict: Verdict, questions: usize, body: &[u8]) -> (Reply, Carried) {
    let enforced = mode == ENFORCED;
    match verdict {
        Verdict::Ignored => (Reply::Serve, Carried::None),
        Verdict::Absent if enforced => (Reply::Truncate, Carried::None),
        Verdict::Absent => (Reply::Serve, Carried::None),
        Verdict::ClientOnly if enforced && questions != 0 => (Reply::Badcookie, Carried::Fresh),
        Verdict::ClientOnly => (Reply::Serve, Carried::Fresh),
        Verdict::BadMethod | Verdict::BadHash | Verdict::BadTime => (Reply::Badcookie, Carried::Fresh),
        Verdict::Good { age } if (0..=1800).contains(&age) && body[9..12] == [0, 0, 0] => (Reply::Serve, Carried::Kept),
        Verdict::Good { .. } | Verdict::GoodOther { .. } => (Reply::Serve, Carried::Fresh),
    }
}
