//! Commands: `sets`, `generate SEED COUNT` and `law SEED COUNT`; README.md describes them.

mod deriver;
mod domain;
mod law;
mod random;
mod reader;
mod sets;
mod table;
mod worked;

use std::io::BufRead;
use std::process::ExitCode;

fn main() -> ExitCode {
    let arguments: Vec<String> = std::env::args().skip(1).collect();
    let number = |place: usize| arguments.get(place).and_then(|word| word.parse::<u64>().ok());
    match (arguments.first().map(String::as_str), number(1), number(2), arguments.len()) {
        (Some("sets"), _, _, 1) => sets(),
        (Some("generate"), Some(seed), Some(count), 3) => {
            random::lines(seed, count as usize).iter().for_each(|line| println!("{line}"));
            ExitCode::SUCCESS
        }
        (Some("law"), Some(seed), Some(count), 3) => law(seed, count as usize),
        _ => {
            eprintln!("usage: independent sets | generate SEED COUNT | law SEED COUNT");
            ExitCode::from(2)
        }
    }
}

/// Answers every case of standard input.
fn sets() -> ExitCode {
    for line in std::io::stdin().lock().lines() {
        let line = line.expect("standard input is text");
        let Some(case) = table::Case::read(&line) else {
            eprintln!("no case: {line}");
            return ExitCode::from(2);
        };
        println!("{}", sets::answer(&case));
    }
    ExitCode::SUCCESS
}

/// Tries the law of reading on so many tables.
fn law(seed: u64, tables: usize) -> ExitCode {
    match law::try_law(seed, tables) {
        Ok(counts) => {
            counts.print();
            println!("the law holds in every case");
            ExitCode::SUCCESS
        }
        Err(what) => {
            println!("{what}");
            ExitCode::FAILURE
        }
    }
}
