//! States that are damaged. Which of them can still be told from a ledger is the library's affair; but its functions are to agree on
//! it, give the answers of the header, and leave every byte as it was that they don't say they write.

use crate::calls::{hex, Call, Got, Line, Offer, Secrets};
use crate::ledgers::states;
use crate::library::Bytes;
use crate::random::Random;
use crate::reference_ledger::*;
use crate::run::Run;
use crate::tally::Table;

const GROUP: &str = "damaged ledgers";
const REFUSED: u64 = 104;
const NO_SECRETS: u64 = 108;
const FILL: u8 = b'#';

pub fn damaged(run: &Run) -> Result<Vec<Table>, String> {
    let mut table = Table::new(GROUP, [(104, 104, "WRONG_LEDGER".to_string()), (0, 0, "taken".to_string())]);
    let stock = states(run)?;
    for case in 0..run.count {
        run.progress(GROUP, case, run.count);
        let random = &mut run.random(GROUP, case);
        let state = damage(random, &stock);
        let refused = check(random, &state).map_err(|what| {
            format!("DIFFERENCE in {GROUP}, seed {}, case {case}\n  state      {}\n  {what}", run.seed, hex(&state))
        })?;
        table.count(if refused { 104 } else { 0 });
    }
    Ok(vec![table])
}

fn damage(random: &mut Random, stock: &[Vec<u8>]) -> Vec<u8> {
    let mut state = stock[random.below(stock.len())].clone();
    match random.below(100) {
        0..=4 => random.fill(&mut state),
        5..=24 => {
            let cut = random.below(LEDGER_SIZE);
            state[cut..].copy_from_slice(&stock[random.below(stock.len())][cut..]);
        }
        25..=59 => state[random.below(LEDGER_SIZE)] ^= 1 << random.below(8),
        _ => {
            for _ in 0..1 + random.below(3) {
                let any = random.byte();
                state[random.below(LEDGER_SIZE)] = random.pick(&[0, 1, 2, 3, 32, 33, 255, any]);
            }
        }
    }
    state
}

/// Whether the state is refused, or what is wrong.
fn check(random: &mut Random, state: &[u8]) -> Result<bool, String> {
    let lent = Bytes::new(state.to_vec());
    let line = ask_line(&lent);
    let member = random.below(34) as u32;
    let secrets = ask_secrets(&lent, member);
    let step = offer(random, &lent);
    let refused = line.answer == REFUSED;
    let none = secrets.answer == NO_SECRETS;
    hold((secrets.answer == REFUSED) == refused, "secrets and lines disagree on it")?;
    hold((step.answer == REFUSED) == refused, "steps and lines disagree on it")?;
    hold(refused || (line.answer & 0xff == 0 && (16..=47).contains(&length(&line))), "no length of a line")?;
    hold(refused || none || [16 << 8, 32 << 8].contains(&secrets.answer), "no length of secrets")?;
    hold(refused || step.answer <= 10, "no answer to a step")?;
    hold(stays_behind(&line) && stays_behind(&secrets), "bytes are written behind what is said")?;
    hold(step.answer == 0 || step.output == state, "a refused step altered it")?;
    hold(line.inputs_stay && secrets.inputs_stay && step.inputs_stay, "an input was altered")?;
    Ok(refused)
}

/// How many bytes were written.
fn length(got: &Got) -> usize {
    (got.answer >> 8) as usize
}

/// Whether the output behind them is as it was.
fn stays_behind(got: &Got) -> bool {
    got.output[length(got)..].iter().all(|byte| *byte == FILL)
}

fn hold(holds: bool, what: &str) -> Result<(), String> {
    if holds {
        Ok(())
    } else {
        Err(what.to_string())
    }
}

fn ask_line(state: &Bytes) -> Got {
    let output = Bytes::new(vec![FILL; LINE_ROOM]);
    let record = Bytes::new(vec![0; RECORD_SIZE]);
    Line { ledger: &Ledger::default(), state: state.clone(), number: 1, record, answer: 0, output }.got()
}

fn ask_secrets(state: &Bytes, member: u32) -> Got {
    let output = Bytes::new(vec![FILL; SECRETS_ROOM]);
    Secrets { ledger: &Ledger::default(), state: state.clone(), member, output }.got()
}

/// A step of some kind, at a time that is not too early, with sixteen bytes of the state's as its secret.
fn offer(random: &mut Random, state: &Bytes) -> Got {
    let secret = state[LEDGER_SIZE - 16..].try_into().unwrap();
    let step = Step { kind: random.below(6) as u8, member: random.below(34) as u8, time: LATEST, secret };
    let record = Bytes::new(step.record([0; 6]).to_vec());
    Offer { ledger: &Ledger::default(), state: state.clone(), record }.got()
}
