//! How often each answer was met, printed as one table; and which answer never was.

use std::fmt::Write;

struct Row {
    key: i64,
    number: i64,
    name: String,
    count: u64,
}

/// The answers of one group. All of them are to be met in a run.
pub struct Table {
    group: &'static str,
    rows: Vec<Row>,
}

impl Table {
    /// Rows by their answers' numbers.
    pub fn of_numbers(group: &'static str, numbers: &[u8]) -> Table {
        Table::new(group, numbers.iter().map(|number| ((*number).into(), (*number).into(), name(*number).to_string())))
    }

    /// Rows of key, number and name. The key is what is counted by: a number can stand in several rows.
    pub fn new(group: &'static str, rows: impl IntoIterator<Item = (i64, i64, String)>) -> Table {
        let rows = rows.into_iter().map(|(key, number, name)| Row { key, number, name, count: 0 }).collect();
        Table { group, rows }
    }

    pub fn count(&mut self, key: impl Into<i64>) {
        let key = key.into();
        assert!(self.count_if_row(key), "{}: the reference gave {key}, which no row has", self.group);
    }

    /// For a table of a few sides among many others.
    pub fn count_if_row(&mut self, key: i64) -> bool {
        let row = self.rows.iter_mut().find(|row| row.key == key);
        let found = row.is_some();
        row.into_iter().for_each(|row| row.count += 1);
        found
    }

    pub fn total(&self) -> u64 {
        self.rows.iter().map(|row| row.count).sum()
    }

    pub fn print(&self) -> String {
        let total = self.total();
        let mut text = format!("\n{:<44}{total:>20}\n", self.group);
        for Row { number, name, count, .. } in &self.rows {
            let percent = 100.0 * *count as f64 / total.max(1) as f64;
            writeln!(text, "{number:>12}  {name:<38}{count:>12} {percent:>7.3} %").unwrap();
        }
        text
    }

    pub fn never_met(&self) -> Vec<String> {
        let never = self.rows.iter().filter(|row| row.count == 0);
        never.map(|row| format!("never reached: {}, {} {}", self.group, row.number, row.name)).collect()
    }
}

/// The header's name of an answer, other than a ledger step's.
pub fn name(number: u8) -> &'static str {
    match number {
        0 => "DONE",
        1 => "SHORT_OUTPUT",
        2 => "WRONG_ADDRESS",
        3 => "WRONG_SIZE",
        4 => "RESPONSE",
        5 => "MANY_QUESTIONS",
        6 => "MALFORMED",
        7 => "WRONG_OPT",
        8 => "WRONG_VERSION",
        9 => "OPTION_PAST",
        10 => "WRONG_COOKIE",
        101 => "WRONG_MODE",
        102 => "WRONG_SECRETS",
        103 => "WRONG_CLIENT",
        104 => "WRONG_LEDGER",
        105 => "WRONG_RECORD",
        106 => "WRONG_ANSWER",
        107 => "NO_ROOM",
        108 => "NO_SECRETS",
        200 => "IGNORED",
        201 => "ABSENT",
        202 => "CLIENT_ONLY",
        203 => "BAD_METHOD",
        204 => "BAD_HASH",
        205 => "BAD_TIME",
        206 => "GOOD_GENERATING",
        207 => "GOOD_OTHER",
        _ => "?",
    }
}

/// The header's name of a step's answer.
pub fn step_name(answer: u8) -> &'static str {
    match answer {
        0 => "accepted",
        1 => "STEP_KIND",
        2 => "STEP_TIME",
        3 => "STEP_EARLIER",
        4 => "STEP_AGAIN",
        5 => "STEP_NOT_OPEN",
        6 => "STEP_OTHER_SECRET",
        7 => "STEP_NO_MEMBER",
        8 => "STEP_OTHER_STAGE",
        9 => "STEP_OTHERS_APART",
        10 => "STEP_WAIT",
        _ => name(answer),
    }
}
