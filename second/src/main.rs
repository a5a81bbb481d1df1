//! The command line: `bench`, `cases`, `demand3`, `marked`.

use second::marked::MARKED;
use second::{cases, demand3, lines, open};
use std::io::{self, Write};
use std::process::ExitCode;

const USAGE: &str = "use: second bench | second cases SEED LINES | second demand3 SEED CALLS | second marked";

fn main() -> ExitCode {
    let arguments: Vec<String> = std::env::args().skip(1).collect();
    let arguments: Vec<&str> = arguments.iter().map(String::as_str).collect();
    let done = match arguments[..] {
        ["bench"] => lines::run(io::stdin().lock(), io::stdout().lock()).map_err(|e| e.to_string()),
        ["cases", seed, lines] => with_numbers(seed, lines, print_cases),
        ["demand3", seed, calls] => with_numbers(seed, calls, print_demand3),
        ["marked"] => print_marked(),
        _ => Err(USAGE.to_string()),
    };
    match done {
        Ok(()) => ExitCode::SUCCESS,
        Err(what) => {
            eprintln!("{what}");
            ExitCode::FAILURE
        }
    }
}

fn with_numbers(one: &str, other: &str, job: fn(u64, u64) -> Result<(), String>) -> Result<(), String> {
    match (one.parse(), other.parse()) {
        (Ok(one), Ok(other)) => job(one, other),
        _ => Err(USAGE.to_string()),
    }
}

fn print_cases(seed: u64, lines: u64) -> Result<(), String> {
    let mut output = io::BufWriter::new(io::stdout().lock());
    for line in cases::cases(seed, lines as usize) {
        writeln!(output, "{line}").map_err(|e| e.to_string())?;
    }
    output.flush().map_err(|e| e.to_string())
}

fn print_demand3(seed: u64, calls: u64) -> Result<(), String> {
    let tally = demand3::run(seed, calls)?;
    println!("{tally}");
    Ok(())
}

/// One line a marked table: name, number, place.
fn print_marked() -> Result<(), String> {
    for table in &MARKED {
        let mut room = vec![0; table.roles as usize * table.words.len()];
        let verdict = open(table.words, table.roles, &mut room);
        println!("{} {} {}", table.name, verdict.number, verdict.place);
    }
    Ok(())
}
