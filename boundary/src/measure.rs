//! Times of both sides on the same inputs, in one run. A time is the thread's own (`clock`).

use crate::bout::{Bout, Deed, Who, DEEDS};
use crate::clock::thread_time;
use crate::shapes::{ROLES, ROWS};
use std::hint::black_box;
use std::time::Duration;

/// Batches of each side; the fastest is taken, since what else a machine does only makes a batch slower.
const BATCHES: usize = 25;
/// About how long a batch takes.
const BATCH: Duration = Duration::from_millis(10);
/// A trial this long says how many calls make a batch.
const TRIAL: Duration = Duration::from_millis(5);

/// Nanoseconds per call of both sides.
pub struct Times {
    pub ours: f64,
    pub second: f64,
}

/// Prints a table of all cases, the lines of a deed and a number of roles as soon as they are known.
pub fn run() -> Result<(), String> {
    println!("| case | rows | roles | ours ns per call | second ns per call | ratio |");
    println!("|---|---|---|---|---|---|");
    for deed in DEEDS {
        for roles in ROLES {
            let bouts = ROWS.map(|rows| Bout::new(deed, rows, roles));
            let bouts = bouts.into_iter().collect::<Result<Vec<_>, _>>()?;
            for (rows, times) in ROWS.into_iter().zip(times(&bouts)?) {
                println!("{}", line(deed, rows, roles, &times));
            }
        }
    }
    Ok(())
}

fn line(deed: Deed, rows: usize, roles: usize, times: &Times) -> String {
    let name = match deed {
        Deed::Open(shape) => format!("open, {}", shape.name()),
        call => call.name().to_string(),
    };
    let ratio = times.ours / times.second;
    format!("| {name} | {rows} | {roles} | {:.0} | {:.0} | {ratio:.2} |", times.ours, times.second)
}

/// The batches of both sides and of all sizes take turns, so that a change of the machine's speed meets both sides and every size.
fn times(bouts: &[Bout]) -> Result<Vec<Times>, String> {
    let calls = bouts.iter().map(calls_of_both).collect::<Result<Vec<_>, _>>()?;
    let mut all: Vec<_> =
        bouts.iter().map(|_| Times { ours: f64::INFINITY, second: f64::INFINITY }).collect();
    for _ in 0..BATCHES {
        for ((bout, calls), times) in bouts.iter().zip(&calls).zip(&mut all) {
            times.ours = times.ours.min(per_call(bout, Who::Ours, calls[0]));
            times.second = times.second.min(per_call(bout, Who::Second, calls[1]));
        }
    }
    Ok(all)
}

fn calls_of_both(bout: &Bout) -> Result<[u64; 2], String> {
    let (ours, second) = (bout.run(Who::Ours, 1), bout.run(Who::Second, 1));
    if ours != second {
        return Err(format!("the two sides answer differently: {ours}, {second}"));
    }
    Ok([calls_of_a_batch(bout, Who::Ours), calls_of_a_batch(bout, Who::Second)])
}

fn calls_of_a_batch(bout: &Bout, who: Who) -> u64 {
    let mut calls = 1;
    loop {
        let time = time(bout, who, calls);
        if time >= TRIAL {
            let batches = BATCH.as_secs_f64() / time.as_secs_f64();
            return ((calls as f64 * batches) as u64).max(1);
        }
        calls *= 2;
    }
}

fn time(bout: &Bout, who: Who, calls: u64) -> Duration {
    let start = thread_time();
    black_box(bout.run(who, calls));
    thread_time() - start
}

fn per_call(bout: &Bout, who: Who, calls: u64) -> f64 {
    time(bout, who, calls).as_secs_f64() * 1e9 / calls as f64
}
