//! The line protocol of `bench`: one line in, one line out.
//!
//! | line | answer |
//! |---|---|
//! | `o ROLES ROOM WORD...` | `NUMBER PLACE`, and accepted the words written |
//! | `t ROLES WORD...` | `NUMBER` of a fresh state over these tables |
//! | `f` | `NUMBER H0 .. H7` |
//! | `h` and 584 numbers | `NUMBER SET COUNT LOWEST` |
//! | `s SENDER RECEIVER LABEL PAYLOAD` | `NUMBER OFFERED SET COUNT LOWEST` |
//! | `r SENDER RECEIVER` | `NUMBER LABEL PAYLOAD OFFERED SET COUNT LOWEST` |
//!
//! OFFERED is the lowest label that the head offers where the call is refused with 16 or 19, else 64.
//!
//! Reading a line. A line is the bytes up to a newline (byte 10), or up to the end of the input where no
//! newline follows; after the last newline there is no further line. It is one command letter, then for
//! each number one blank (byte 32) and one or more digits. Leading zeros are read; a sign, a carriage
//! return, a tab, a blank at either end, two blanks together or any other byte makes the line malformed.
//! There is no bound on the length of a line.
//!
//! Widths. Every number is at most 4294967295. A table word and a head are at most 65535, a held count and a
//! held label at most 255. A wider number makes the line malformed. Within the widths the engine
//! judges: sender 255 is 14, label 65535 is 16, a held count of 64 is 13.
//!
//! Counts of numbers. `o` has 2 or more, `t` 1 or more, `f` 0, `h` 584, `s` 4, `r` 2; any other count is malformed.
//! No words at all is a table of length 0: `o` answers 1, `t` answers 12.
//!
//! A malformed line is answered `?` and changes nothing. An empty line is malformed.
//!
//! What is kept. The tables with their role count, and the state. At the start the tables are empty and the
//! state is all zeros. `o` and `t` set the tables and leave the state as it is: accepted, `o` keeps the first
//! roles × length words of the room; refused, it keeps none. `t` keeps its words whether or not they
//! are well formed. `f` sets the state also when refused, to all zeros. `h` sets the state also when it is
//! not well formed. `s` and `r` set the state that the call hands back, which refused is the one given.

use crate::limits::{DEPTH, MOST_ROLES, MOST_ROWS, PAIRS, ROW, SLOTS};
use crate::numbers::ACCEPTED;
use crate::opening::open;
use crate::session::{fresh, Awaited, Received, Session};
use std::io::{self, BufRead, Write};

/// Numbers of an `h` line: heads, counts, labels, payloads.
pub const STATE_NUMBERS: usize = MOST_ROLES + PAIRS + SLOTS + SLOTS;

/// An opening never needs more room, so a longer room is lent at this length.
const MOST_ROOM: usize = MOST_ROLES * MOST_ROWS * ROW;

/// What a run of lines keeps.
pub struct Bench {
    pub tables: Vec<u16>,
    pub roles: u32,
    pub session: Session,
}

impl Default for Bench {
    fn default() -> Bench {
        Bench { tables: Vec::new(), roles: 0, session: Session::ZERO }
    }
}

/// Answers every line of the input.
pub fn run(input: impl BufRead, output: impl Write) -> io::Result<()> {
    let (mut input, mut output) = (input, io::BufWriter::new(output));
    let mut bench = Bench::default();
    let mut line = Vec::new();
    loop {
        line.clear();
        if input.read_until(b'\n', &mut line)? == 0 {
            return output.flush();
        }
        if line.last() == Some(&b'\n') {
            line.pop();
        }
        output.write_all(bench.answer(&line).as_bytes())?;
        output.write_all(b"\n")?;
    }
}

impl Bench {
    /// The answer to one line, without its newline.
    pub fn answer(&mut self, line: &[u8]) -> String {
        self.well_formed_answer(line).unwrap_or_else(|| "?".to_string())
    }

    /// Nothing is kept before all numbers of the line are known to fit.
    fn well_formed_answer(&mut self, line: &[u8]) -> Option<String> {
        let (command, rest) = line.split_first()?;
        let numbers = numbers(rest)?;
        match (command, &numbers[..]) {
            (b'o', [roles, room, words @ ..]) => Some(self.opening(*roles, *room, &fit(words)?)),
            (b't', [roles, words @ ..]) => Some(self.hand_made_tables(*roles, fit(words)?)),
            (b'f', []) => Some(self.fresh_state()),
            (b'h', state) if state.len() == STATE_NUMBERS => Some(self.hand_made_state(session(state)?)),
            (b's', [sender, receiver, label, payload]) => {
                Some(self.send(*sender, *receiver, *label, *payload))
            }
            (b'r', [sender, receiver]) => Some(self.receive(*sender, *receiver)),
            _ => None,
        }
    }

    fn opening(&mut self, roles: u32, room: u32, table: &[u16]) -> String {
        let mut lent = vec![0; (room as usize).min(MOST_ROOM)];
        let verdict = open(table, roles, &mut lent);
        let written = if verdict.number == ACCEPTED { roles as usize * table.len() } else { 0 };
        lent.truncate(written);
        let mut answer = format!("{} {}", verdict.number, verdict.place);
        push_all(&mut answer, &lent);
        self.roles = roles;
        self.tables = lent;
        answer
    }

    fn hand_made_tables(&mut self, roles: u32, tables: Vec<u16>) -> String {
        self.roles = roles;
        self.tables = tables;
        fresh(&self.tables, self.roles).0.to_string()
    }

    fn fresh_state(&mut self) -> String {
        let (number, session) = fresh(&self.tables, self.roles);
        self.session = session;
        let mut answer = number.to_string();
        push_all(&mut answer, &self.session.heads);
        answer
    }

    fn hand_made_state(&mut self, session: Session) -> String {
        self.session = session;
        let awaited = self.awaited();
        format!("{} {}", awaited.number, shown(&awaited))
    }

    fn send(&mut self, sender: u32, receiver: u32, label: u32, payload: u32) -> String {
        let given = std::mem::replace(&mut self.session, Session::ZERO);
        let (sent, left) = given.send(&self.tables, self.roles, sender, receiver, label, payload);
        self.session = left;
        format!("{} {} {}", sent.number, sent.offered, shown(&self.awaited()))
    }

    fn receive(&mut self, sender: u32, receiver: u32) -> String {
        let given = std::mem::replace(&mut self.session, Session::ZERO);
        let (received, left) = given.receive(&self.tables, self.roles, sender, receiver);
        self.session = left;
        let Received { number, label, payload, offered } = received;
        format!("{number} {label} {payload} {offered} {}", shown(&self.awaited()))
    }

    fn awaited(&self) -> Awaited {
        self.session.awaited(&self.tables, self.roles)
    }
}

/// Set, count and lowest.
fn shown(awaited: &Awaited) -> String {
    format!("{} {} {}", awaited.set, awaited.count, awaited.lowest)
}

fn push_all(answer: &mut String, words: &[u16]) {
    use std::fmt::Write;
    for word in words {
        // Writing to a String does not fail.
        let _ = write!(answer, " {word}");
    }
}

/// The numbers after the command letter, each after one blank.
fn numbers(bytes: &[u8]) -> Option<Vec<u32>> {
    let Some((b' ', rest)) = bytes.split_first() else {
        return bytes.is_empty().then(Vec::new);
    };
    rest.split(|&byte| byte == b' ').map(number).collect()
}

/// One or more digits that make at most 32 bits.
fn number(digits: &[u8]) -> Option<u32> {
    if digits.is_empty() {
        return None;
    }
    digits.iter().try_fold(0u32, |so_far, &byte| {
        let digit = byte.is_ascii_digit().then(|| u32::from(byte - b'0'))?;
        so_far.checked_mul(10)?.checked_add(digit)
    })
}

/// Numbers as a narrower kind, if all fit.
fn fit<T: TryFrom<u32>>(numbers: &[u32]) -> Option<Vec<T>> {
    numbers.iter().map(|&number| T::try_from(number).ok()).collect()
}

/// The state of an `h` line.
fn session(numbers: &[u32]) -> Option<Session> {
    let (heads, rest) = numbers.split_at(MOST_ROLES);
    let (counts, rest) = rest.split_at(PAIRS);
    let (labels, payloads) = rest.split_at(PAIRS * DEPTH);
    Some(Session {
        heads: fit(heads)?.try_into().ok()?,
        counts: fit(counts)?.try_into().ok()?,
        labels: fit(labels)?.try_into().ok()?,
        payloads: payloads.try_into().ok()?,
    })
}

/// The `h` line of a state.
pub fn state_line(session: &Session) -> String {
    let mut line = String::from("h");
    let narrow = session.heads.iter().map(|&head| u32::from(head));
    let counts = session.counts.iter().map(|&count| u32::from(count));
    let labels = session.labels.iter().map(|&label| u32::from(label));
    for number in narrow.chain(counts).chain(labels).chain(session.payloads) {
        line.push(' ');
        line.push_str(&number.to_string());
    }
    line
}
