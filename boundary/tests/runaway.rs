//! Public functions below the C boundary end soon and go no deeper than their table, whatever the words: two inputs on which they once ran away.
//! `rt lib` in crates/probe comes first.

use boundary::clock::thread_time;
use second::limits::{MOST_ROLES, MOST_ROWS};
use std::sync::mpsc::channel;
use std::thread;
use std::time::Duration;

#[link(name = "probe", kind = "static")]
extern "C" {
    fn probe_parts(table: *const u16, words: usize, roles: usize) -> u8;
    fn probe_join(
        work: *mut u16,
        work_words: usize,
        spare: *mut u16,
        spare_words: usize,
        a: usize,
        b: usize,
    ) -> bool;
}

/// A call that takes longer has run away.
const SOON: Duration = Duration::from_secs(10);
/// The bytes of stack for a depth of a table's rows, and for the test around the call.
const DEEP: usize = MOST_ROWS * 512 + 65_536;
/// More words than any part has.
const LONG: usize = 66_000;

fn parts(table: &[u16], roles: usize) -> u8 {
    unsafe { probe_parts(table.as_ptr(), table.len(), roles) }
}

fn join(word: u16) -> bool {
    let mut work = vec![word; LONG];
    let mut spare = vec![0; LONG];
    unsafe { probe_join(work.as_mut_ptr(), work.len(), spare.as_mut_ptr(), spare.len(), 0, 1) }
}

/// Choices of roles 0 and 1 whose two arms lead to one next choice, as many as the rows hold, and an End: the ways to the End double with each.
fn shared(rows: usize) -> Vec<u16> {
    let mut words = Vec::new();
    for choice in 0..(rows - 1) / 3 {
        let row = 3 * choice as u16;
        words.extend([1, 0, 1, row + 1, 2, 0, row + 3, row + 2, 2, 1, row + 3, 0]);
    }
    words.extend([0; 4]);
    words
}

/// What a job gives, if it ends soon. One that does not is left running until the tests end.
fn soon<T: Send + 'static>(job: impl FnOnce() -> T + Send + 'static) -> Option<T> {
    let (say, hear) = channel();
    thread::spawn(move || say.send(job()));
    hear.recv_timeout(SOON).ok()
}

/// The least time of some runs.
fn least(runs: usize, job: impl Fn()) -> Duration {
    let time = |_| {
        let start = thread_time();
        job();
        thread_time() - start
    };
    (0..runs).map(time).min().unwrap_or_default()
}

#[test]
fn parts_end_where_two_links_lead_to_one_row() {
    for rows in [16, 64, 128, MOST_ROWS] {
        for roles in [2, 3, MOST_ROLES] {
            let table = shared(rows);
            let number = soon(move || parts(&table, roles));
            assert_eq!(number, Some(7), "{rows} rows, {roles} roles");
        }
    }
}

#[test]
fn parts_take_no_more_than_the_square_of_the_rows() {
    let time = |rows| {
        let table = shared(rows);
        soon(move || least(20, || assert_eq!(parts(&table, 3), 7))).expect("it runs away")
    };
    let (half, whole) = (time(MOST_ROWS / 2), time(MOST_ROWS));
    assert!(whole < 6 * half, "{half:?}, {whole:?}");
}

#[test]
fn join_goes_no_deeper_than_a_table() {
    for word in 0..16 {
        let thread = thread::Builder::new().stack_size(DEEP).spawn(move || join(word));
        thread.expect("a thread can be made").join().expect("it comes back");
    }
}
