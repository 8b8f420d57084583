//! Requests, right and wrong, and the cookies in them.

use crate::calls::Member;
use crate::random::Random;
use crate::reference;

/// Both sides of each line, and where the serial arithmetic wraps.
pub const AGES: [i64; 13] = [-(1 << 31), -301, -300, -1, 0, 1, 1799, 1800, 1801, 3599, 3600, 3601, (1 << 31) - 1];

/// A COOKIE body of any length, most of them legal and many of them good.
pub fn body(random: &mut Random, member: &Member) -> Vec<u8> {
    let mut body = cookie(random, member);
    match random.below(100) {
        0..=69 => {}
        70..=81 => body.truncate(8),
        _ => {
            // Otherwise right, so that nothing but the length is wrong.
            body.extend(random.bytes(24));
            body.truncate(random.below(46));
        }
    }
    body
}

/// Client cookie and server cookie, 24 bytes.
fn cookie(random: &mut Random, member: &Member) -> Vec<u8> {
    let client = random.bytes(8);
    let timestamp = member.clock.wrapping_sub(age(random) as u32);
    let mut head = vec![if random.percent(96) { 1 } else { random.pick(&[0, 2, 129, 240, 255]) }];
    head.extend(reserved(random));
    head.extend(timestamp.to_be_bytes());
    let hash = cookie_hash(random, member, &client, &head);
    [client, head, hash].concat()
}

fn age(random: &mut Random) -> i64 {
    match random.below(100) {
        0..=54 => random.pick(&AGES),
        55..=94 => random.below(4200) as i64 - 400,
        _ => random.next() as i64,
    }
}

fn reserved(random: &mut Random) -> [u8; 3] {
    let mut reserved = [0; 3];
    match random.below(100) {
        0..=74 => {}
        75..=87 => reserved[random.below(3)] = random.pick(&[1, 128, 255]),
        _ => random.fill(&mut reserved),
    }
    reserved
}

/// A hash that is right under the generating secret, or under the other, or wrong in one of the ways of a forger or a student.
fn cookie_hash(random: &mut Random, member: &Member, client: &[u8], head: &[u8]) -> Vec<u8> {
    let Some(secret) = member.secrets.chunks_exact(16).next() else { return random.bytes(8) };
    let secret = match random.below(100) {
        0..=64 => secret,
        _ => member.secrets.chunks_exact(16).nth(1).unwrap_or(secret),
    };
    let mut hash = reference::cookie_hash(secret, client, head, &member.address).to_vec();
    match random.below(100) {
        0..=79 => {}
        80..=84 => random.fill(&mut hash),
        85..=87 => hash[random.below(8)] ^= 1 << random.below(8),
        88..=90 => hash[7] ^= 1,
        91..=92 => hash.reverse(),
        93..=94 => hash = reference::cookie_hash(&random.secret(), client, head, &member.address).to_vec(),
        95..=96 => hash = reference::cookie_hash(secret, client, head, &random.bytes(member.address.len())).to_vec(),
        _ => {
            // The student's: reserved bytes taken for zero.
            let zeroed = [&[head[0], 0, 0, 0], &head[4..]].concat();
            hash = reference::cookie_hash(secret, client, &zeroed, &member.address).to_vec();
        }
    }
    hash
}

/// A message of any length and kind, most of them well formed.
pub fn request(random: &mut Random, member: &Member) -> Vec<u8> {
    let mut message = match random.below(1000) {
        0..=14 => noise(random, 12),
        15..=24 => noise(random, 60),
        25..=26 => huge(random, member),
        _ => ordinary(random, member),
    };
    if random.percent(8) {
        damage(random, &mut message);
    }
    message
}

/// Bytes that mean nothing. Many are zero, so that some of the first checks pass.
fn noise(random: &mut Random, longest: usize) -> Vec<u8> {
    let length = random.below(longest + 1);
    (0..length).map(|_| if random.percent(75) { 0 } else { random.byte() }).collect()
}

fn damage(random: &mut Random, message: &mut Vec<u8>) {
    if message.is_empty() {
        return;
    }
    let at = random.below(message.len());
    match random.below(5) {
        0 => message.truncate(at),
        1 => message.push(random.byte()),
        2 => message[at] = random.byte(),
        3 => message[at] ^= 1 << random.below(8),
        _ => {
            let count = 4 + random.below(8);
            if count < message.len() {
                message[count] = random.pick(&[0, 1, 2, 255]);
            }
        }
    }
}

fn ordinary(random: &mut Random, member: &Member) -> Vec<u8> {
    let mut message = header(random);
    let questions = match random.below(100) {
        0..=16 => 0,
        17..=96 => 1,
        _ => random.pick(&[2, 3, 255, 256, 257, 65_535]),
    };
    set_number(&mut message, 4, questions);
    for _ in 0..questions.min(2) {
        name(random, &mut message);
        message.extend([0, 1, 0, 1]);
    }
    for section in 1..=3 {
        let count = records(random, member, section, &mut message);
        set_number(&mut message, 4 + 2 * section, count);
    }
    message
}

/// A header whose counts are 0.
fn header(random: &mut Random) -> Vec<u8> {
    let mut header = random.bytes(4);
    header[2] &= 0x7f;
    if random.percent(2) {
        header[2] |= 0x80;
    }
    header.resize(12, 0);
    header
}

fn set_number(message: &mut [u8], at: usize, number: usize) {
    message[at..at + 2].copy_from_slice(&(number as u16).to_be_bytes());
}

fn name(random: &mut Random, message: &mut Vec<u8>) {
    let labels = match random.below(1000) {
        0..=399 => 0,
        400..=979 => random.below(4),
        980..=989 => 128 + random.below(4), // at the 255 bytes of RFC 1035, which document 01 doesn't ask for
        _ => {
            bad_label(random, message);
            0
        }
    };
    for _ in 0..labels {
        let length = if labels > 100 { 1 } else { random.pick(&[1, 2, 3, 7, 10, 63]) };
        message.push(length as u8);
        message.extend(random.bytes(length));
    }
    if random.percent(20) {
        message.extend([random.pick(&[192, 193, 255]), random.byte()]);
    } else {
        message.push(0);
    }
}

/// A length byte that is none, with what would follow it if it were one, or if it were a pointer's.
fn bad_label(random: &mut Random, message: &mut Vec<u8>) {
    let length = random.pick(&[64, 65, 127, 128, 191]);
    let follow = if random.percent(50) { length } else { 1 };
    message.push(length as u8);
    message.extend(random.bytes(follow));
}

/// The records of a section, with an OPT among them: mostly one, in the additional section. Answers how many they are.
fn records(random: &mut Random, member: &Member, section: usize, message: &mut Vec<u8>) -> usize {
    let mut opts = match (section, random.below(100)) {
        (3, 0..=6) => 0,
        (3, 7..=8) => 2,
        (3, _) => 1,
        (_, 0) => 1,
        _ => 0,
    };
    let mut others = if random.percent(15) { 1 + random.below(3) } else { 0 };
    let count = opts + others;
    while opts + others > 0 {
        if random.below(opts + others) < opts {
            opt(random, member, message);
            opts -= 1;
        } else {
            other_record(random, member, message);
            others -= 1;
        }
    }
    count
}

fn other_record(random: &mut Random, member: &Member, message: &mut Vec<u8>) {
    name(random, message);
    let kind: u16 = random.pick(&[1, 2, 6, 16, 28, 250, 40, 42, 0x2900, 0x0129, 0x2929]);
    message.extend(kind.to_be_bytes());
    message.extend(random.bytes(6));
    let mut data = random.bytes(0);
    if random.percent(20) {
        // For whoever searches the message for an OPT.
        opt(random, member, &mut data);
    } else {
        let length = random.below(20);
        data = random.bytes(length);
    }
    message.extend((data.len() as u16).to_be_bytes());
    message.extend(data);
}

fn opt(random: &mut Random, member: &Member, message: &mut Vec<u8>) {
    match random.below(100) {
        0 => name(random, message),
        1 => message.extend([192, 12]),
        _ => message.push(0),
    }
    message.extend([0, 41]);
    message.extend(random.bytes(3));
    message.push(if random.percent(3) { random.pick(&[1, 2, 128, 255]) } else { 0 });
    message.extend(random.bytes(2));
    let length_at = message.len();
    message.extend([0, 0]);
    options(random, member, message);
    let length = message.len() - length_at - 2;
    set_number(message, length_at, length);
}

fn options(random: &mut Random, member: &Member, message: &mut Vec<u8>) {
    for _ in 0..random.pick(&[0, 0, 0, 1, 2]) {
        other_option(random, member, message);
    }
    if random.percent(92) {
        option(10, &body(random, member), message);
    }
    for _ in 0..random.pick(&[0, 0, 0, 1, 2]) {
        if random.percent(50) {
            option(10, &body(random, member), message);
        } else {
            other_option(random, member, message);
        }
    }
    match random.below(100) {
        0 => message.extend([0, 10, 0].iter().take(1 + random.below(3))),
        1 => message.extend([0, 12, random.pick(&[0, 1]), random.pick(&[1, 2, 255])]),
        2 => message.extend([0, 12, 0, 2, 0]),
        _ => {}
    }
}

fn option(code: u16, body: &[u8], message: &mut Vec<u8>) {
    message.extend(code.to_be_bytes());
    message.extend((body.len() as u16).to_be_bytes());
    message.extend(body);
}

fn other_option(random: &mut Random, member: &Member, message: &mut Vec<u8>) {
    let code = random.pick(&[0, 3, 8, 9, 11, 12, 0x0a00, 0x0a0a, 0x010a, 65_001]);
    let mut inner = Vec::new();
    if random.percent(25) {
        // For whoever searches the data for a COOKIE option.
        option(10, &body(random, member), &mut inner);
    } else {
        let length = random.below(12);
        inner = random.bytes(length);
    }
    option(code, &inner, message);
}

/// A message at the longest length there is, or over it, well formed except for that.
fn huge(random: &mut Random, member: &Member) -> Vec<u8> {
    let size = random.pick(&[65_534, 65_535, 65_535, 65_535, 65_536, 65_537, 70_000, 131_083]);
    let mut message = header(random);
    let mut last = Vec::new();
    opt(random, member, &mut last);
    let room = size - message.len() - last.len();
    if random.percent(30) {
        set_number(&mut message, 4, 1);
        long_question(room, &mut message);
    } else {
        let chunk = random.pick(&[11, 12, 300, 60_000]);
        let count = fillers(room, chunk, &mut message);
        set_number(&mut message, 6, count);
    }
    set_number(&mut message, 10, 1);
    message.extend(last);
    message
}

/// A question of thousands of labels that takes the room.
fn long_question(room: usize, message: &mut Vec<u8>) {
    let mut labels = room - 5;
    while labels > 0 {
        let label = if labels > 64 { 2 } else { labels };
        message.push(label as u8 - 1);
        message.resize(message.len() + label - 1, b'x');
        labels -= label;
    }
    message.extend([0, 0, 1, 0, 1]);
}

/// Records of about the chunk's size that take the room; answers how many.
fn fillers(room: usize, chunk: usize, message: &mut Vec<u8>) -> usize {
    let mut left = room;
    let mut count = 0;
    while left > 0 {
        let size = if left < chunk + 11 { left } else { chunk };
        message.extend([0, 0, 16, 0, 1, 0, 0, 0, 0]);
        message.extend(((size - 11) as u16).to_be_bytes());
        message.resize(message.len() + size - 11, 10);
        left -= size;
        count += 1;
    }
    count
}
