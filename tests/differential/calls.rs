//! The calls: what the reference expects of each, what the library gives, and the inputs, for the report of a difference.

use crate::library::*;
use crate::reference;
use crate::reference_ledger::{Ledger, Step, LEDGER_SIZE, LINE_ROOM, RECORD_SIZE, SECRETS_ROOM};

/// What the reference expects of a call. The bytes that it only reads are to stay as they were.
pub struct Expected {
    pub answer: u64,
    /// The bytes that it may write, all of them, as they are afterwards; None where the papers leave them to the library.
    pub output: Option<Vec<u8>>,
}

/// What the library gave.
pub struct Got {
    pub answer: u64,
    pub output: Vec<u8>,
    pub inputs_stay: bool,
}

impl Expected {
    pub fn is_met_by(&self, got: &Got) -> bool {
        self.answer == got.answer && self.output.as_ref().is_none_or(|output| *output == got.output) && got.inputs_stay
    }
}

pub type Inputs = Vec<(&'static str, String)>;

pub trait Call {
    fn expected(&self) -> Expected;
    fn got(&self) -> Got;
    fn inputs(&self) -> Inputs;
}

pub fn hex(bytes: &[u8]) -> String {
    bytes.iter().map(|byte| format!("{byte:02x}")).collect()
}

fn shown(bytes: &[u8]) -> String {
    format!("{} ({} bytes)", hex(bytes), bytes.len())
}

/// An output with these bytes at its front, and otherwise as it was.
fn written(output: &[u8], front: &[u8]) -> Vec<u8> {
    let mut after = output.to_vec();
    after[..front.len()].copy_from_slice(front);
    after
}

fn expect(answer: impl Into<u64>, output: Vec<u8>) -> Expected {
    Expected { answer: answer.into(), output: Some(output) }
}

/// DONE and how many bytes were written, these.
fn expect_length(output: &[u8], front: &[u8]) -> Expected {
    expect((front.len() as u64) << 8, written(output, front))
}

/// DONE and these bytes written, or a refusal.
fn expect_written(front: Result<impl AsRef<[u8]>, u8>, output: &[u8]) -> Expected {
    match front {
        Ok(front) => expect(0u64, written(output, front.as_ref())),
        Err(number) => expect(number, output.to_vec()),
    }
}

fn with_age(number: u8, age: i64) -> u64 {
    u64::from(number) | u64::from(age as u32) << 32
}

// Cookies.

pub struct Hash {
    pub secret: Bytes,
    pub message: Bytes,
    pub output: Bytes,
}

impl Call for Hash {
    fn expected(&self) -> Expected {
        expect_written(reference::siphash24(&self.secret, &self.message, self.output.len()), &self.output)
    }

    fn got(&self) -> Got {
        let (secret, message, mut output) = (self.secret.lend(), self.message.lend(), self.output.lend());
        let answer = unsafe {
            dnscookie_siphash24(
                secret.start(),
                secret.length(),
                message.start(),
                message.length(),
                output.start_mut(),
                output.length(),
            )
        };
        let inputs_stay = secret.is_as_it_was() && message.is_as_it_was();
        Got { answer: answer.into(), output: output.back(), inputs_stay }
    }

    fn inputs(&self) -> Inputs {
        vec![("secret", shown(&self.secret)), ("message", shown(&self.message)), ("output", shown(&self.output))]
    }
}

/// What a member judges by.
pub struct Member {
    pub mode: u32,
    pub secrets: Bytes,
    pub clock: u32,
    pub address: Bytes,
}

impl Member {
    fn inputs(&self) -> Inputs {
        vec![
            ("mode", self.mode.to_string()),
            ("secrets", shown(&self.secrets)),
            ("clock", format!("{:08x}", self.clock)),
            ("address", shown(&self.address)),
        ]
    }
}

pub struct Judge {
    pub member: Member,
    pub body: Bytes,
}

impl Call for Judge {
    fn expected(&self) -> Expected {
        let Member { mode, secrets, clock, address } = &self.member;
        let answer = match reference::judge(*mode, secrets, *clock, address, &self.body) {
            Ok(verdict) => with_age(verdict.number(), verdict.age()),
            Err(number) => number.into(),
        };
        expect(answer, Vec::new())
    }

    fn got(&self) -> Got {
        let Member { mode, secrets, clock, address } = &self.member;
        let (secrets, address, body) = (secrets.lend(), address.lend(), self.body.lend());
        let answer = unsafe {
            dnscookie_judge(
                *mode,
                secrets.start(),
                secrets.length(),
                *clock,
                address.start(),
                address.length(),
                body.start(),
                body.length(),
            )
        };
        let inputs_stay = secrets.is_as_it_was() && address.is_as_it_was() && body.is_as_it_was();
        Got { answer, output: Vec::new(), inputs_stay }
    }

    fn inputs(&self) -> Inputs {
        let mut inputs = self.member.inputs();
        inputs.push(("body", shown(&self.body)));
        inputs
    }
}

/// A fresh option. The member's mode has no part in it.
pub struct Make {
    pub member: Member,
    pub client: Bytes,
    pub output: Bytes,
}

impl Call for Make {
    fn expected(&self) -> Expected {
        let Member { secrets, clock, address, .. } = &self.member;
        expect_written(reference::make(secrets, *clock, address, &self.client, self.output.len()), &self.output)
    }

    fn got(&self) -> Got {
        let Member { secrets, clock, address, .. } = &self.member;
        let (secrets, address, client) = (secrets.lend(), address.lend(), self.client.lend());
        let mut output = self.output.lend();
        let answer = unsafe {
            dnscookie_make(
                secrets.start(),
                secrets.length(),
                *clock,
                address.start(),
                address.length(),
                client.start(),
                client.length(),
                output.start_mut(),
                output.length(),
            )
        };
        let inputs_stay = secrets.is_as_it_was() && address.is_as_it_was() && client.is_as_it_was();
        Got { answer: answer.into(), output: output.back(), inputs_stay }
    }

    fn inputs(&self) -> Inputs {
        let mut inputs = self.member.inputs();
        inputs.extend([("client", shown(&self.client)), ("output", shown(&self.output))]);
        inputs
    }
}

// Requests.

pub struct Find {
    pub message: Bytes,
}

impl Call for Find {
    fn expected(&self) -> Expected {
        let answer = match reference::find(&self.message) {
            Err(number) => number.into(),
            Ok(found) => {
                let number = if found.body.is_some() { 0 } else { 201 };
                let body = found.body.unwrap_or(0..0);
                number | (found.questions as u64) << 8 | (body.start as u64) << 16 | (body.end as u64) << 32
            }
        };
        expect(answer, Vec::new())
    }

    fn got(&self) -> Got {
        let message = self.message.lend();
        let answer = unsafe { dnscookie_find(message.start(), message.length()) };
        Got { answer, output: Vec::new(), inputs_stay: message.is_as_it_was() }
    }

    fn inputs(&self) -> Inputs {
        vec![("message", shown(&self.message))]
    }
}

pub struct Respond {
    pub member: Member,
    pub message: Bytes,
    pub output: Bytes,
}

impl Respond {
    pub fn reference(&self) -> reference::Response {
        let Member { mode, secrets, clock, address } = &self.member;
        reference::respond(*mode, secrets, *clock, address, &self.message, self.output.len())
    }
}

impl Call for Respond {
    fn expected(&self) -> Expected {
        let response = self.reference();
        let answer =
            with_age(response.number, response.age) | (response.reply as u64) << 8 | (response.carried as u64) << 16;
        let option = response.option.as_ref().map_or(&[][..], |option| &option[..]);
        expect(answer, written(&self.output, option))
    }

    fn got(&self) -> Got {
        let Member { mode, secrets, clock, address } = &self.member;
        let (secrets, address, message) = (secrets.lend(), address.lend(), self.message.lend());
        let mut output = self.output.lend();
        let answer = unsafe {
            dnscookie_respond(
                *mode,
                secrets.start(),
                secrets.length(),
                *clock,
                address.start(),
                address.length(),
                message.start(),
                message.length(),
                output.start_mut(),
                output.length(),
            )
        };
        let inputs_stay = secrets.is_as_it_was() && address.is_as_it_was() && message.is_as_it_was();
        Got { answer, output: output.back(), inputs_stay }
    }

    fn inputs(&self) -> Inputs {
        let mut inputs = self.member.inputs();
        inputs.extend([("message", shown(&self.message)), ("output", shown(&self.output))]);
        inputs
    }
}

// Ledgers. What the state's bytes mean is the library's affair: they are compared only where they are to stay as they were.

fn expect_state(answer: u8, state: &[u8]) -> Expected {
    Expected { answer: answer.into(), output: if answer == 0 { None } else { Some(state.to_vec()) } }
}

pub struct Fresh {
    pub state: Bytes,
}

impl Call for Fresh {
    fn expected(&self) -> Expected {
        expect_state(if self.state.len() == LEDGER_SIZE { 0 } else { 104 }, &self.state)
    }

    fn got(&self) -> Got {
        let mut state = self.state.lend();
        let answer = unsafe { dnscookie_ledger_fresh(state.start_mut(), state.length()) };
        Got { answer: answer.into(), output: state.back(), inputs_stay: true }
    }

    fn inputs(&self) -> Inputs {
        vec![("state", shown(&self.state))]
    }
}

pub struct Offer<'a> {
    pub ledger: &'a Ledger,
    pub state: Bytes,
    pub record: Bytes,
}

impl Call for Offer<'_> {
    fn expected(&self) -> Expected {
        let answer = if self.state.len() != LEDGER_SIZE {
            104
        } else if self.record.len() != RECORD_SIZE {
            105
        } else {
            self.ledger.clone().step(&Step::of(&self.record))
        };
        expect_state(answer, &self.state)
    }

    fn got(&self) -> Got {
        let (mut state, record) = (self.state.lend(), self.record.lend());
        let answer =
            unsafe { dnscookie_ledger_step(state.start_mut(), state.length(), record.start(), record.length()) };
        let inputs_stay = record.is_as_it_was();
        Got { answer: answer.into(), output: state.back(), inputs_stay }
    }

    fn inputs(&self) -> Inputs {
        vec![("state", shown(&self.state)), ("record", shown(&self.record))]
    }
}

pub struct Secrets<'a> {
    pub ledger: &'a Ledger,
    pub state: Bytes,
    pub member: u32,
    pub output: Bytes,
}

impl Call for Secrets<'_> {
    fn expected(&self) -> Expected {
        if self.state.len() != LEDGER_SIZE {
            return expect(104u8, self.output.to_vec());
        }
        if self.output.len() < SECRETS_ROOM {
            return expect(107u8, self.output.to_vec());
        }
        let secrets = self.ledger.secrets(self.member);
        if secrets.is_empty() {
            return expect(108u8, self.output.to_vec());
        }
        expect_length(&self.output, &secrets)
    }

    fn got(&self) -> Got {
        let (state, mut output) = (self.state.lend(), self.output.lend());
        let answer = unsafe {
            dnscookie_ledger_secrets(state.start(), state.length(), self.member, output.start_mut(), output.length())
        };
        let inputs_stay = state.is_as_it_was();
        Got { answer, output: output.back(), inputs_stay }
    }

    fn inputs(&self) -> Inputs {
        vec![("state", shown(&self.state)), ("member", self.member.to_string()), ("output", shown(&self.output))]
    }
}

pub struct Line<'a> {
    pub ledger: &'a Ledger,
    pub state: Bytes,
    pub number: u64,
    pub record: Bytes,
    pub answer: u32,
    pub output: Bytes,
}

impl Call for Line<'_> {
    fn expected(&self) -> Expected {
        if self.state.len() != LEDGER_SIZE {
            return expect(104u8, self.output.to_vec());
        }
        if self.record.len() != RECORD_SIZE {
            return expect(105u8, self.output.to_vec());
        }
        if self.answer > 10 {
            return expect(106u8, self.output.to_vec());
        }
        if self.output.len() < LINE_ROOM {
            return expect(107u8, self.output.to_vec());
        }
        expect_length(&self.output, self.ledger.line(self.number, self.record[0], self.answer as u8).as_bytes())
    }

    fn got(&self) -> Got {
        let (state, record, mut output) = (self.state.lend(), self.record.lend(), self.output.lend());
        let answer = unsafe {
            dnscookie_ledger_line(
                state.start(),
                state.length(),
                self.number,
                record.start(),
                record.length(),
                self.answer,
                output.start_mut(),
                output.length(),
            )
        };
        let inputs_stay = state.is_as_it_was() && record.is_as_it_was();
        Got { answer, output: output.back(), inputs_stay }
    }

    fn inputs(&self) -> Inputs {
        vec![
            ("state", shown(&self.state)),
            ("number", self.number.to_string()),
            ("record", shown(&self.record)),
            ("answer", self.answer.to_string()),
            ("output", shown(&self.output)),
        ]
    }
}
