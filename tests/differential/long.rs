//! Lengths over 2^32 whose lower half would do: who keeps a length in 32 bits takes them for short ones. The bytes are mappings
//! that cost no memory, as nothing but their first pages is touched.

use crate::library::*;
use crate::run::Run;
use crate::tally::{name, Table};

const OVER: usize = 1 << 32;
const ROOM: usize = OVER + 65_536;

extern "C" {
    fn mmap(start: *mut u8, length: usize, protection: i32, flags: i32, file: i32, offset: i64) -> *mut u8;
    fn munmap(start: *mut u8, length: usize) -> i32;
}

/// Zeros, as many as there is ROOM. They are given back, as valgrind searches all that is left at the end.
struct Zeros(*mut u8);

impl Zeros {
    fn new() -> Result<Zeros, String> {
        let (read_and_write, private_anonymous_no_reserve) = (1 | 2, 0x2 | 0x20 | 0x4000);
        let start = unsafe { mmap(std::ptr::null_mut(), ROOM, read_and_write, private_anonymous_no_reserve, -1, 0) };
        if start as isize == -1 {
            Err("no room for lengths over 2^32: see ulimit -v".to_string())
        } else {
            Ok(Zeros(start))
        }
    }
}

impl Drop for Zeros {
    fn drop(&mut self) {
        unsafe { munmap(self.0, ROOM) };
    }
}

pub fn lengths(_: &Run) -> Result<Vec<Table>, String> {
    let (zeros, outputs) = (Zeros::new()?, Zeros::new()?);
    let cases = cases(zeros.0, outputs.0);
    let rows = cases.iter().enumerate();
    let named =
        rows.map(|(key, (what, number, _))| (key as i64, i64::from(*number), format!("{} for {what}", name(*number))));
    let mut table = Table::new("lengths over 2^32", named);
    for (key, (what, expected, got)) in cases.iter().enumerate() {
        if u64::from(*expected) != got & 0xff {
            return Err(format!("DIFFERENCE in lengths over 2^32, {what}: expected {expected}, got {}", got & 0xff));
        }
        table.count(key as i64);
    }
    Ok(vec![table])
}

/// What is too long or has much room, the number expected, and the answer.
fn cases(zeros: *mut u8, outputs: *mut u8) -> Vec<(&'static str, u8, u64)> {
    let judge = |secrets: usize, address: usize, body: usize| unsafe {
        dnscookie_judge(1, zeros, secrets, 0, zeros, address, zeros, body)
    };
    let respond = |secrets: usize, address: usize, message: usize, output: usize| unsafe {
        dnscookie_respond(1, zeros, secrets, 0, zeros, address, zeros, message, outputs, output)
    };
    let make = |secrets: usize, address: usize, client: usize, output: usize| unsafe {
        u64::from(dnscookie_make(zeros, secrets, 0, zeros, address, zeros, client, outputs, output))
    };
    let hash = |secret: usize, output: usize| unsafe {
        u64::from(dnscookie_siphash24(zeros, secret, zeros, 20, outputs, output))
    };
    let step = |state: usize, record: usize| unsafe {
        dnscookie_ledger_fresh(outputs, 68);
        u64::from(dnscookie_ledger_step(outputs, state, zeros, record))
    };
    // What is asked of a fresh ledger goes behind it.
    let behind = unsafe { outputs.add(4096) };
    let secrets = |state: usize, output: usize| unsafe {
        dnscookie_ledger_fresh(outputs, 68);
        dnscookie_ledger_secrets(outputs, state, 0, behind, output)
    };
    let line = |state: usize, record: usize, output: usize| unsafe {
        dnscookie_ledger_fresh(outputs, 68);
        dnscookie_ledger_line(outputs, state, 1, zeros, record, 0, behind, output)
    };
    let find = |message: usize| unsafe { dnscookie_find(zeros, message) };
    let fresh = |state: usize| unsafe { u64::from(dnscookie_ledger_fresh(outputs, state)) };
    vec![
        ("judge's secrets", 102, judge(OVER + 16, 4, 8)),
        ("judge's address", 2, judge(16, OVER + 4, 8)),
        ("judge's body", 10, judge(16, 4, OVER + 8)),
        ("respond's secrets", 102, respond(OVER + 32, 4, 12, 28)),
        ("respond's address", 2, respond(16, OVER + 16, 12, 28)),
        ("respond's message", 3, respond(16, 4, OVER + 12, 28)),
        ("respond's output", 201, respond(16, 4, 12, OVER)),
        ("find's message", 3, find(OVER + 12)),
        ("make's secrets", 102, make(OVER + 16, 4, 8, 28)),
        ("make's address", 2, make(16, OVER + 4, 8, 28)),
        ("make's client", 103, make(16, 4, OVER + 8, 28)),
        ("make's output", 0, make(16, 4, 8, OVER)),
        ("siphash24's secret", 102, hash(OVER + 16, 8)),
        ("siphash24's output", 0, hash(16, OVER)),
        ("fresh's state", 104, fresh(OVER + 68)),
        ("step's state", 104, step(OVER + 68, 32)),
        ("step's record", 105, step(68, OVER + 32)),
        ("secrets' state", 104, secrets(OVER + 68, 32)),
        ("secrets' output", 108, secrets(68, OVER)),
        ("line's state", 104, line(OVER + 68, 32, 47)),
        ("line's record", 105, line(68, OVER + 32, 47)),
        ("line's output", 0, line(68, 32, OVER)),
    ]
}
