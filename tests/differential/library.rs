//! The library's functions, and the bytes that are lent to them.

use std::ops::Deref;

extern "C" {
    pub fn dnscookie_respond(
        mode: u32,
        secrets: *const u8,
        secrets_length: usize,
        clock: u32,
        address: *const u8,
        address_length: usize,
        message: *const u8,
        message_length: usize,
        output: *mut u8,
        output_length: usize,
    ) -> u64;
    pub fn dnscookie_judge(
        mode: u32,
        secrets: *const u8,
        secrets_length: usize,
        clock: u32,
        address: *const u8,
        address_length: usize,
        body: *const u8,
        body_length: usize,
    ) -> u64;
    pub fn dnscookie_make(
        secrets: *const u8,
        secrets_length: usize,
        clock: u32,
        address: *const u8,
        address_length: usize,
        client: *const u8,
        client_length: usize,
        output: *mut u8,
        output_length: usize,
    ) -> u32;
    pub fn dnscookie_find(message: *const u8, message_length: usize) -> u64;
    pub fn dnscookie_siphash24(
        secret: *const u8,
        secret_length: usize,
        message: *const u8,
        message_length: usize,
        output: *mut u8,
        output_length: usize,
    ) -> u32;
    pub fn dnscookie_ledger_fresh(state: *mut u8, state_length: usize) -> u32;
    pub fn dnscookie_ledger_step(state: *mut u8, state_length: usize, record: *const u8, record_length: usize) -> u32;
    pub fn dnscookie_ledger_secrets(
        state: *const u8,
        state_length: usize,
        member: u32,
        output: *mut u8,
        output_length: usize,
    ) -> u64;
    pub fn dnscookie_ledger_line(
        state: *const u8,
        state_length: usize,
        number: u64,
        record: *const u8,
        record_length: usize,
        answer: u32,
        output: *mut u8,
        output_length: usize,
    ) -> u64;
}

/// Bytes of a case, and how they are lent.
#[derive(Clone)]
pub struct Bytes {
    pub bytes: Vec<u8>,
    /// As a null pointer, if there are none of them.
    pub null: bool,
    /// So many bytes behind the start of an allocation, as a caller's bytes need not be aligned.
    pub skipped: usize,
}

impl Bytes {
    pub fn new(bytes: Vec<u8>) -> Bytes {
        Bytes { bytes, null: false, skipped: 0 }
    }

    /// A copy that the library gets. Its allocation ends where it ends, so that valgrind sees what is touched beyond.
    pub fn lend(&self) -> Lent<'_> {
        let mut copy = Vec::with_capacity(self.skipped + self.bytes.len());
        copy.resize(self.skipped, 0);
        copy.extend(&self.bytes);
        Lent { copy: copy.into_boxed_slice(), of: self }
    }
}

impl Deref for Bytes {
    type Target = [u8];

    fn deref(&self) -> &[u8] {
        &self.bytes
    }
}

pub struct Lent<'a> {
    copy: Box<[u8]>,
    of: &'a Bytes,
}

impl Lent<'_> {
    pub fn start(&self) -> *const u8 {
        if self.is_null() {
            std::ptr::null()
        } else {
            self.copy[self.of.skipped..].as_ptr()
        }
    }

    pub fn start_mut(&mut self) -> *mut u8 {
        if self.is_null() {
            std::ptr::null_mut()
        } else {
            self.copy[self.of.skipped..].as_mut_ptr()
        }
    }

    fn is_null(&self) -> bool {
        self.of.null && self.of.is_empty()
    }

    pub fn length(&self) -> usize {
        self.of.len()
    }

    pub fn is_as_it_was(&self) -> bool {
        self.copy[self.of.skipped..] == self.of[..]
    }

    pub fn back(self) -> Vec<u8> {
        self.copy[self.of.skipped..].to_vec()
    }
}
