//! Answers that others gave: document 01's cases, RFC 9018's appendix, the SipHash paper, packets as resolvers send them, cookies of name
//! servers. The reference is held to them before it is used, so that it doesn't merely agree with the library.

use crate::reference::{self, Verdict};
use crate::reference_ledger::{Ledger, Step};

/// Of RFC 9018's B.1 to B.3.
pub const SECRET: &str = "e5e973e5a6b2a43f 48e7dc849e37bfcf";
pub const ADDRESS: &str = "c6336464";
pub const CLOCK: u32 = 0x5cf7_9f11;
const CLIENT: &str = "2464c4abcf10c957";

/// Of B.1: good under the secret above, for the address above.
const COOKIE: &str = "2464c4abcf10c957 010000005cf79f11 1f8130c3eee29480";

/// One question and one additional record.
const HEADER: &str = "1234 0100 0001 0000 0000 0001";
const QUESTION: &str = "03777777 076578616d706c65 0474657374 00 0001 0001";
const OPT: &str = "00 0029 04d0 00000000";

/// The length of the OPT's data, and the head of the COOKIE option in it.
const DATA: &str = "001c 000a0018";

const LABEL_64: &str = "40 0000000000000000 0000000000000000 0000000000000000 0000000000000000
    0000000000000000 0000000000000000 0000000000000000 0000000000000000";

/// What it is, the refusal, the COOKIE body that is found, and the message in parts.
pub type Packet = (&'static str, u8, &'static str, &'static [&'static str]);

pub const PACKETS: [Packet; 19] = [
    ("right", 0, COOKIE, &[HEADER, QUESTION, OPT, DATA, COOKIE]),
    ("client only", 0, CLIENT, &[HEADER, QUESTION, OPT, "000c 000a0008", CLIENT]),
    ("no question", 0, COOKIE, &["7ea9 0120 0000 0000 0000 0001", OPT, DATA, COOKIE]),
    ("no OPT", 0, "", &["eb17 0120 0001 0000 0000 0000", QUESTION]),
    ("empty OPT", 0, "", &[HEADER, QUESTION, OPT, "0000"]),
    ("padding behind", 0, COOKIE, &[HEADER, QUESTION, OPT, "0024 000a0018", COOKIE, "000c0004 00000000"]),
    ("8 and 24", 0, CLIENT, &[HEADER, QUESTION, OPT, "0028 000a0008", CLIENT, "000a0018", COOKIE]),
    ("24 and 8", 0, COOKIE, &[HEADER, QUESTION, OPT, "0028 000a0018", COOKIE, "000a0008", CLIENT]),
    (
        "update",
        0,
        COOKIE,
        &[
            "1234 2800 0001 0000 0001 0001",
            "076578616d706c65 0474657374 00 0006 0001",
            "036e6577c00c 0001 0001 0000012c 0004 c0000209",
            OPT,
            DATA,
            COOKIE,
        ],
    ),
    (
        "record behind",
        0,
        COOKIE,
        &["1234 0100 0001 0000 0000 0002", QUESTION, OPT, DATA, COOKIE, "c00c 0001 0001 00000000 0004 c0000209"],
    ),
    ("pointer ffff", 0, COOKIE, &[HEADER, "ffff 0001 0001", OPT, DATA, COOKIE]),
    ("all counts ffff", 6, "", &["1234 0100 0001 ffff ffff ffff", QUESTION, OPT, DATA, COOKIE]),
    ("length byte 64", 6, "", &[HEADER, LABEL_64, "00 0001 0001", OPT, DATA, COOKIE]),
    ("one byte left over", 6, "", &[HEADER, QUESTION, OPT, DATA, COOKIE, "00"]),
    ("OPT in the authority section", 7, "", &["1234 0100 0001 0000 0001 0000", QUESTION, OPT, DATA, COOKIE]),
    ("two OPTs", 7, "", &["1234 0100 0001 0000 0000 0002", QUESTION, OPT, DATA, COOKIE, OPT, "0000"]),
    ("EDNS version 1", 8, "", &[HEADER, QUESTION, "00 0029 04d0 00010000", DATA, COOKIE]),
    ("half an option's head", 9, "", &[HEADER, QUESTION, OPT, "0003 000a00"]),
    ("body of 41", 10, "", &[HEADER, QUESTION, OPT, "002d 000a0029", COOKIE, "0000000000000000000000000000000000"]),
];

pub fn message(packet: &Packet) -> Vec<u8> {
    packet.3.iter().flat_map(|part| unhex(part)).collect()
}

/// Cookies that Knot, BIND, NSD and PowerDNS made under the secret above for the client above: the address and the server cookie.
const MADE: [(&str, &str); 8] = [
    ("7f000001", "0100000000000032 30b58a9ad461c6d1"),
    ("00000000000000000000000000000001", "0100000000000041 fe21090c968242d6"),
    ("7f000001", "010000006af9e5c8 3975cda7a78995cf"),
    ("00000000000000000000000000000001", "010000006af9e5d2 1f7345bffade0b9f"),
    ("7f000001", "010000006af9e5f7 d50c814a01391709"),
    ("00000000000000000000000000000001", "010000006af9e602 f4ad02b8b399d1a0"),
    ("7f000001", "010000006af9e611 ce509d590553b2cd"),
    ("00000000000000000000000000000001", "010000006af9e61f 816708eef9d676ab"),
];

/// Spaces are for the reader.
pub fn unhex(text: &str) -> Vec<u8> {
    let digits: Vec<u8> = text.chars().filter_map(|digit| digit.to_digit(16)).map(|digit| digit as u8).collect();
    digits.chunks_exact(2).map(|pair| pair[0] << 4 | pair[1]).collect()
}

pub fn check() -> Result<(), String> {
    check_hashes()?;
    check_packets()?;
    check_cookies()?;
    check_ages()?;
    check_journal()
}

fn hold(holds: bool, what: &str) -> Result<(), String> {
    if holds {
        Ok(())
    } else {
        Err(format!("the reference itself is wrong: {what}"))
    }
}

fn check_hashes() -> Result<(), String> {
    let counting: Vec<u8> = (0..16).collect();
    let hash = reference::hash(&counting, &counting[..15]);
    hold(u64::from_le_bytes(hash) == 0xa129_ca61_49be_45e5, "the SipHash paper's appendix")
}

fn check_packets() -> Result<(), String> {
    for packet @ (what, expected, expected_body, _) in &PACKETS {
        let message = message(packet);
        let found = reference::find(&message);
        let refusal = found.as_ref().err().copied().unwrap_or(0);
        let body = found.ok().and_then(|found| found.body).map_or(&[][..], |body| &message[body]);
        hold(refusal == *expected && body == unhex(expected_body), what)?;
    }
    Ok(())
}

fn check_cookies() -> Result<(), String> {
    let other_address = "cb0071cb";
    let address6 = "20010db8 02200001 59ded0f4 876982b8";
    let old = "dd3bdf9344b678b1 85a6f5cb60fca715";
    let new = "445536bcd2513298 075a5d379663c962";
    let made = |secret: &str, address: &str, body: &str| {
        let body = unhex(body);
        let clock = reference::timestamp(&body);
        let option = reference::make(&unhex(secret), clock, &unhex(address), &body[..8], 28);
        option.is_ok_and(|option| option[..4] == [0, 10, 0, 24] && option[4..] == body)
    };
    let verdict = |secrets: &str, address: &str, clock: u32, body: &str| {
        reference::verdict(&unhex(secrets), clock, &unhex(address), &unhex(body))
    };
    hold(made(SECRET, ADDRESS, COOKIE), "P1")?;
    hold(made(SECRET, ADDRESS, "2464c4abcf10c957 010000005cf7a871 d4a564a1442aca77"), "P2, fresh")?;
    hold(verdict(SECRET, ADDRESS, 0x5cf7_a871, COOKIE) == Verdict::Good { age: 2400 }, "P2, received")?;
    let reserved = "fc93fc62807ddb86 01abcdef5cf78f71 a314227b6679ebf5";
    hold(verdict(SECRET, other_address, 0x5cf7_a9ac, reserved) == Verdict::BadTime, "P3")?;
    hold(verdict(SECRET, other_address, 0x5cf7_8f71, reserved) == Verdict::Good { age: 0 }, "P3, earlier")?;
    hold(made(SECRET, other_address, "fc93fc62807ddb86 010000005cf7a9ac f73a7810aca2381e"), "P4")?;
    let received = "22681ab97d52c298 010000005cf7c579 26556bd0934c72f8";
    let secrets = format!("{new}{old}");
    hold(verdict(&secrets, address6, 0x5cf7_c609, received) == Verdict::GoodOther { age: 144 }, "P5")?;
    hold(made(new, address6, "22681ab97d52c298 010000005cf7c609 a6bb79d16625507a"), "P6")?;
    for (address, server) in MADE {
        hold(made(SECRET, address, &format!("{CLIENT}{server}")), "another name server's cookie")?;
    }
    Ok(())
}

fn check_ages() -> Result<(), String> {
    let verdict = |age: i64| {
        let clock = CLOCK.wrapping_add(age as u32);
        reference::verdict(&unhex(SECRET), clock, &unhex(ADDRESS), &unhex(COOKIE))
    };
    hold([-300, 0, 3600].iter().all(|age| verdict(*age) == Verdict::Good { age: *age }), "P7, in")?;
    hold([-301, 3601].iter().all(|age| verdict(*age) == Verdict::BadTime), "P7, out")?;
    hold(reference::age(100, 0xffff_ff9c) == 200, "P8")
}

/// Document 01's sample journal.
fn check_journal() -> Result<(), String> {
    let (a, b, c) = ([0x11; 16], [0x22; 16], [0x33; 16]);
    let steps = [
        (0, 2, 1000, a),
        (1, 0, 1010, b),
        (1, 0, 1011, c),
        (2, 0, 1020, b),
        (3, 0, 1030, b),
        (2, 1, 1030, b),
        (3, 1, 1040, b),
        (3, 0, 1050, b),
        (4, 0, 4650, b),
        (4, 0, 4651, b),
        (4, 1, 4651, b),
    ];
    let lines =
        "1 0 0 0 2 0 0 0\n2 1 0 1 2 0 0 0\n3 1 4 1 2 0 0 0\n4 2 0 1 1 1 0 0\n5 3 9 1 1 1 0 0\n6 2 0 1 0 2 0 0\n\
                 7 3 0 1 0 1 1 0\n8 3 0 1 0 0 2 0\n9 4 10 1 0 0 2 0\n10 4 0 1 0 0 1 1\n11 4 0 0 2 0 0 0\n";
    let mut ledger = Ledger::default();
    let mut listed = String::new();
    for (number, (kind, member, time, secret)) in (1..).zip(steps) {
        let answer = ledger.step(&Step { kind, member, time, secret });
        listed += &ledger.line(number, kind, answer);
    }
    hold(listed == lines, "the sample journal")
}
