//! Differential tests: the library against a reference that was written from the papers and the header alone.
//!
//! Every function of the header is called on cases from one seed, with both sides of each line of document 01 among them. Answers and
//! every lent byte are compared. The first difference ends the run, and so does an answer that no case reached.

mod calls;
mod cookies;
mod damaged;
mod known;
mod ledgers;
mod library;
mod long;
mod messages;
mod random;
mod reference;
mod reference_ledger;
mod requests;
mod run;
mod steps;
mod tally;

use run::Run;
use std::process::ExitCode;
use std::time::Instant;
use tally::Table;

const USAGE: &str = "usage: differential [--count N] [--seed S] [--few]
  --count N   at least N cases of each group, 1000000 if not given
  --seed S    what the cases come from, 1 if not given
  --few       an answer that no case reaches is no failure: for small counts";

struct Arguments {
    count: u64,
    seed: u64,
    few: bool,
}

fn arguments() -> Result<Arguments, String> {
    let mut arguments = Arguments { count: 1_000_000, seed: 1, few: false };
    let mut words = std::env::args().skip(1);
    while let Some(word) = words.next() {
        match word.as_str() {
            "--count" => arguments.count = number(&word, words.next())?,
            "--seed" => arguments.seed = number(&word, words.next())?,
            "--few" => arguments.few = true,
            _ => return Err(format!("no such argument: {word}")),
        }
    }
    Ok(arguments)
}

fn number(name: &str, value: Option<String>) -> Result<u64, String> {
    let value = value.ok_or(format!("{name} lacks its number"))?;
    value.parse().map_err(|_| format!("{name} wants a whole number, not {value}"))
}

fn compare_all(run: &Run) -> Result<Vec<Table>, String> {
    known::check()?;
    let groups = [
        cookies::hashes,
        cookies::verdicts,
        cookies::options,
        requests::answered,
        requests::found,
        ledgers::fresh,
        ledgers::runs,
        damaged::damaged,
        long::lengths,
    ];
    let mut tables = Vec::new();
    for group in groups {
        tables.extend(group(run)?);
    }
    Ok(tables)
}

fn main() -> ExitCode {
    let arguments = match arguments() {
        Ok(arguments) => arguments,
        Err(mistake) => {
            eprintln!("differential: {mistake}\n{USAGE}");
            return ExitCode::from(2);
        }
    };
    let started = Instant::now();
    println!("differential: seed {}, at least {} cases of each group", arguments.seed, arguments.count);
    let tables = match compare_all(&Run::new(arguments.seed, arguments.count)) {
        Ok(tables) => tables,
        Err(difference) => {
            println!("{difference}");
            return ExitCode::FAILURE;
        }
    };
    tables.iter().for_each(|table| print!("{}", table.print()));
    let never: Vec<String> = tables.iter().flat_map(Table::never_met).collect();
    println!("\nno difference, in {:.1} seconds", started.elapsed().as_secs_f64());
    if never.is_empty() || arguments.few {
        return ExitCode::SUCCESS;
    }
    println!("{}", never.join("\n"));
    ExitCode::FAILURE
}
