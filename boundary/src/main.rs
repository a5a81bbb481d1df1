//! The command line: `fuzz`, `measure`, `work`.

use boundary::bout::{Bout, Deed, Who};
use boundary::{fault, fuzz, measure};
use std::process::ExitCode;

const USAGE: &str =
    "use: boundary fuzz SEED CALLS | boundary measure | boundary work ours|second CASE ROWS ROLES N
CASE is line, wide, loops, replies, votes, send, receive or awaited";

fn main() -> ExitCode {
    let arguments: Vec<String> = std::env::args().skip(1).collect();
    let arguments: Vec<&str> = arguments.iter().map(String::as_str).collect();
    let done = match arguments[..] {
        ["fuzz", seed, calls] => print_fuzz(seed, calls),
        ["measure"] => measure::run(),
        ["work", who, case, rows, roles, calls] => print_work(who, case, [rows, roles, calls]),
        _ => Err(USAGE.to_string()),
    };
    match done {
        Ok(()) => ExitCode::SUCCESS,
        Err(what) => {
            eprintln!("{}", what.trim_end());
            ExitCode::FAILURE
        }
    }
}

fn number(word: &str) -> Result<u64, String> {
    word.parse().map_err(|_| USAGE.to_string())
}

fn print_fuzz(seed: &str, calls: &str) -> Result<(), String> {
    fault::watch();
    let tally = fuzz::run(number(seed)?, number(calls)?).map_err(|difference| difference.to_string())?;
    print!("{tally}");
    match fuzz::lacks(&tally) {
        Some(what) => Err(what),
        None => Ok(()),
    }
}

/// The checksum has a fixed width, so that printing it costs the same for every count of calls.
fn print_work(who: &str, case: &str, [rows, roles, calls]: [&str; 3]) -> Result<(), String> {
    let (Some(who), Some(deed)) = (Who::named(who), Deed::named(case)) else {
        return Err(USAGE.to_string());
    };
    let bout = Bout::new(deed, number(rows)? as usize, number(roles)? as usize)?;
    println!("{:016x}", bout.run(who, number(calls)?));
    Ok(())
}
