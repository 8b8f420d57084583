//! A run: its seed and count, the comparing of one call, and a sign of life.

use crate::calls::{hex, Call, Expected, Got};
use crate::random::Random;
use std::cell::Cell;
use std::io::IsTerminal;
use std::time::{Duration, Instant};

const PROGRESS_EVERY: Duration = Duration::from_secs(3);

pub struct Run {
    pub seed: u64,
    pub count: u64,
    next_progress: Cell<Instant>,
}

impl Run {
    pub fn new(seed: u64, count: u64) -> Run {
        Run { seed, count, next_progress: Cell::new(Instant::now() + PROGRESS_EVERY) }
    }

    pub fn random(&self, group: &str, case: u64) -> Random {
        Random::new(self.seed, group, case)
    }

    /// What the library gave, if it is what the reference expects; otherwise a report of the difference.
    pub fn compare(&self, group: &str, case: u64, call: &impl Call) -> Result<Got, String> {
        let (expected, got) = (call.expected(), call.got());
        if expected.is_met_by(&got) {
            Ok(got)
        } else {
            Err(self.report(group, case, call, &expected, &got))
        }
    }

    fn report(&self, group: &str, case: u64, call: &impl Call, expected: &Expected, got: &Got) -> String {
        let mut lines = vec![format!("DIFFERENCE in {group}, seed {}, case {case}", self.seed)];
        lines.extend(call.inputs().into_iter().map(|(name, value)| format!("  {name:<10} {value}")));
        let output = expected.output.as_ref().map_or("(the library's)".to_string(), |output| hex(output));
        lines.push(format!("  expected   {}, output {output}", answer(expected.answer)));
        lines.push(format!("  got        {}, output {}", answer(got.answer), hex(&got.output)));
        if !got.inputs_stay {
            lines.push("  got        bytes altered that were lent to be read".to_string());
        }
        lines.join("\n")
    }

    pub fn progress(&self, group: &str, done: u64, of: u64) {
        if Instant::now() < self.next_progress.get() {
            return;
        }
        self.next_progress.set(Instant::now() + PROGRESS_EVERY);
        let end = if std::io::stderr().is_terminal() { "\r" } else { "\n" };
        eprint!("differential: {group}: {done} of {of}      {end}");
    }
}

fn answer(answer: u64) -> String {
    format!("answer {} ({answer:016x})", answer & 0xff)
}
