//! Input lines for `bench`: every command, every number from 0 to 19, hand-made tables and states, and malformed
//! lines among them. The lines depend on the seed alone.
//!
//! The maker keeps a `Bench` of its own beside the lines, only to choose calls that have a chance: a call
//! at random is refused with 14 or 15 nearly every time.

use crate::blocks::Blocks;
use crate::hand_made::{blocks_of, chain_labels, changed_tables, payload, random_tables, state};
use crate::limits::{DEPTH, MOST_ROLES, MOST_ROWS, PAIRS, ROW};
use crate::lines::{state_line, Bench, STATE_NUMBERS};
use crate::marked::MARKED;
use crate::numbers::ACCEPTED;
use crate::parts::{RECEIVE, SEND};
use crate::plans::{damage, odd_word, protocol, Protocol};
use crate::random::Random;
use crate::table::{ARM, BACK, END, LOOP};

/// The given number of lines for a seed.
pub fn cases(seed: u64, lines: usize) -> Vec<String> {
    let mut maker = Maker { random: Random::new(seed), bench: Bench::default(), lines: Vec::new() };
    maker.prelude();
    while maker.lines.len() < lines {
        match maker.random.below(100) {
            0..=29 => maker.opened_session(),
            30..=69 => maker.damaged_opening(),
            70..=87 => maker.hand_made(),
            88..=98 => maker.malformed(),
            _ => maker.long(),
        }
    }
    maker.lines.truncate(lines);
    maker.lines
}

/// Tables with two faults, and others that pin a reading: the order of rules, the lowest row, the trap; and of K4 sends
/// that differ later, sends with other label sets, and late sends beside a role that has no part.
pub const PINNED: [(u32, &[u16]); 7] = [
    (
        2,
        &[
            1, 0, 1, 1, 2, 0, 2, 7, 1, 0, 1, 3, 2, 1, 4, 5, 0, 0, 0, 0, 2, 1, 6, 0, 0, 0, 0, 0, 2, 0, 8, 0,
            0, 0, 0, 0,
        ],
    ),
    (
        3,
        &[
            3, 1, 0, 0, 1, 2, 0, 2, 2, 9, 3, 0, 3, 4, 0, 0, 1, 0, 1, 5, 2, 1, 6, 7, 4, 0, 0, 0, 2, 2, 8, 0,
            4, 1, 0, 0,
        ],
    ),
    (
        4,
        &[
            1, 0, 1, 1, 2, 1, 2, 12, 1, 2, 0, 3, 2, 5, 4, 0, 1, 3, 1, 5, 2, 1, 6, 9, 1, 1, 2, 7, 2, 3, 8, 0,
            0, 0, 0, 0, 2, 2, 10, 0, 1, 1, 2, 11, 2, 4, 23, 0, 2, 2, 13, 0, 1, 2, 0, 14, 2, 5, 15, 0, 1, 3,
            1, 16, 2, 1, 17, 20, 1, 1, 2, 18, 2, 4, 19, 0, 0, 0, 0, 0, 2, 2, 21, 0, 1, 1, 2, 22, 2, 3, 24, 0,
            0, 0, 0, 0, 0, 0, 0, 0,
        ],
    ),
    (3, &[4, 65535, 0, 0, 5, 0, 0, 0]),
    (
        3,
        &[
            1, 0, 1, 1, 2, 1, 2, 11, 1, 2, 1, 3, 2, 4, 4, 7, 1, 1, 2, 5, 2, 6, 6, 0, 0, 0, 0, 0, 2, 5, 8, 0,
            1, 1, 2, 9, 2, 8, 10, 0, 0, 0, 0, 0, 2, 2, 12, 0, 1, 2, 1, 13, 2, 5, 14, 17, 1, 1, 2, 15, 2, 9,
            16, 0, 0, 0, 0, 0, 2, 4, 18, 0, 1, 1, 2, 19, 2, 7, 20, 0, 0, 0, 0, 0,
        ],
    ),
    (
        3,
        &[
            1, 0, 1, 1, 2, 1, 2, 7, 1, 2, 1, 3, 2, 4, 4, 5, 0, 0, 0, 0, 2, 5, 6, 0, 0, 0, 0, 0, 2, 2, 8, 0,
            1, 2, 1, 9, 2, 4, 10, 0, 0, 0, 0, 0,
        ],
    ),
    (
        4,
        &[
            1, 0, 1, 1, 2, 1, 2, 9, 1, 2, 1, 3, 2, 5, 4, 0, 1, 1, 2, 5, 2, 6, 6, 0, 1, 1, 3, 7, 2, 1, 8, 0,
            0, 0, 0, 0, 2, 2, 10, 0, 1, 2, 1, 11, 2, 5, 12, 0, 1, 1, 2, 13, 2, 7, 14, 0, 1, 0, 3, 15, 2, 1,
            16, 0, 0, 0, 0, 0,
        ],
    ),
];

struct Maker {
    random: Random,
    bench: Bench,
    lines: Vec<String>,
}

impl Maker {
    fn say(&mut self, line: String) {
        self.bench.answer(line.as_bytes());
        self.lines.push(line);
    }

    /// Lines that every seed begins with, so that short runs meet every number too.
    fn prelude(&mut self) {
        self.say("s 0 1 5 7".to_string());
        self.say("r 0 1".to_string());
        self.say("f".to_string());
        for table in &MARKED {
            self.opening(table.roles, table.roles as usize * table.words.len(), table.words);
        }
        for (roles, words) in PINNED {
            self.opening(roles, roles as usize * words.len(), words);
        }
        for line in MALFORMED {
            self.say(line.to_string());
        }
        self.every_call_number();
    }

    /// T5's story with FULL, and the numbers 12 to 19 once each.
    fn every_call_number(&mut self) {
        let (roles, words) = (MARKED[4].roles, MARKED[4].words);
        self.opening(roles, 72, words);
        self.say("f".to_string());
        for payload in 1..=5 {
            self.say(format!("s 0 1 1 {payload}"));
        }
        for line in ["r 0 1", "s 0 1 1 4294967295", "s 0 1 3 0", "s 0 0 1 0", "r 2 1", "r 0 1", "r 0 1"] {
            self.say(line.to_string());
        }
        for line in ["r 0 1", "r 0 1", "r 0 1", "s 0 4294967295 4294967295 0", "r 00 01"] {
            self.say(line.to_string());
        }
        let mut stray = self.bench.session.clone();
        stray.counts[1] = 1;
        stray.labels[DEPTH] = 9;
        self.say(state_line(&stray));
        self.say("r 0 1".to_string());
        stray.labels[DEPTH] = 64;
        self.say(state_line(&stray));
        self.say("s 0 1 1 0".to_string());
        self.say("t 2 5 1 1 0 2 0 2 0 0 0 0 0 6 1 1 0 2 0 2 0 0 0 0 0".to_string());
        self.say("r 0 1".to_string());
    }

    fn opening(&mut self, roles: u32, room: usize, words: &[u16]) {
        let line = with_words(format!("o {roles} {room}"), words);
        self.say(line);
    }

    /// A table that opens, if one is found soon, and calls from a fresh state.
    fn opened_session(&mut self) {
        let protocol = self.opened_protocol();
        let need = protocol.roles as usize * protocol.words.len();
        let room = if self.random.chance(80) { need } else { need + self.random.below(4000) };
        self.opening(protocol.roles, room, &protocol.words);
        if self.random.chance(95) {
            self.say("f".to_string());
        }
        let eager = self.random.chance(40);
        for _ in 0..self.random.between(3, 60) {
            self.call(eager);
            if self.nobody_awaited() && self.random.chance(40) {
                return;
            }
        }
    }

    fn nobody_awaited(&self) -> bool {
        self.bench.session.awaited(&self.bench.tables, self.bench.roles).set == 0
    }

    fn opened_protocol(&mut self) -> Protocol {
        loop {
            let protocol = protocol(&mut self.random);
            if blocks_of(&protocol).is_some() {
                return protocol;
            }
        }
    }

    /// One or two faults in a table, or too little room; a refused one is followed by calls that answer 12.
    fn damaged_opening(&mut self) {
        let mut protocol = protocol(&mut self.random);
        for _ in 0..self.random.between(1, 2) {
            damage(&mut self.random, &mut protocol);
        }
        let need = (protocol.roles as usize).min(9) * protocol.words.len();
        let room = match self.random.below(10) {
            0 => need.saturating_sub(1),
            1 => self.random.below(need + 1),
            _ => need,
        };
        self.opening(protocol.roles, room, &protocol.words);
        if self.random.chance(10) {
            self.say("f".to_string());
            self.call(false);
        }
        if self.random.chance(20) {
            self.call(false);
        }
    }

    /// Hand-made tables and a hand-made state.
    fn hand_made(&mut self) {
        match self.random.below(10) {
            0..=2 => {
                let (roles, words) = random_tables(&mut self.random);
                self.say(with_words(format!("t {roles}"), &words));
            }
            3..=7 => {
                let protocol = self.opened_protocol();
                let (roles, words) = changed_tables(&mut self.random, &protocol);
                self.say(with_words(format!("t {roles}"), &words));
            }
            _ => {
                let protocol = self.opened_protocol();
                self.opening(protocol.roles, 8192, &protocol.words);
            }
        }
        if self.random.chance(85) {
            self.say("f".to_string());
        }
        for _ in 0..self.random.between(1, 2) {
            let state = state(&mut self.random, &self.bench);
            self.say(state_line(&state));
            for _ in 0..self.random.between(1, 6) {
                self.call(false);
            }
        }
    }

    /// One call: mostly one that has a chance.
    fn call(&mut self, eager: bool) {
        let likely = if self.random.chance(85) { self.likely_call(eager) } else { None };
        let line = match likely {
            Some(line) => line,
            None => self.any_call(),
        };
        self.say(line);
    }

    /// A call that fits some role's head; its label is at times another.
    fn likely_call(&mut self, eager: bool) -> Option<String> {
        let tables = self.bench.tables.clone();
        let awaited = self.bench.session.awaited(&tables, self.bench.roles);
        if awaited.number != ACCEPTED {
            return None;
        }
        let blocks = Blocks::read(&tables, self.bench.roles)?;
        let head = |role: usize| blocks.row(role, self.bench.session.heads[role] as usize);
        let wanted = |role: &usize| match head(*role)[0] {
            SEND => true,
            RECEIVE => !eager || awaited.set.count_ones() == 1,
            _ => false,
        };
        let awaited_only = self.random.chance(85) && !eager;
        let roles: Vec<usize> = (0..blocks.roles)
            .filter(wanted)
            .filter(|role| !awaited_only || awaited.set >> role & 1 == 1)
            .collect();
        let role = self.random.pick(&roles)?;
        let [kind, peer, first, _] = head(role);
        if kind == RECEIVE {
            return Some(format!("r {peer} {role}"));
        }
        let labels = chain_labels(&blocks, role, first);
        let label = if self.random.chance(8) { 6 } else { self.random.pick(&labels)? };
        Some(format!("s {role} {peer} {label} {}", payload(&mut self.random)))
    }

    fn any_call(&mut self) -> String {
        let top = (self.bench.roles as usize).clamp(2, 8) + usize::from(self.random.chance(10));
        let role = |random: &mut Random| {
            let wide = random.pick(&[8, 9, 255, 256, 65535, 65536, u32::MAX]).unwrap_or(8);
            if random.chance(3) {
                wide
            } else {
                random.below(top) as u32
            }
        };
        let (sender, receiver) = (role(&mut self.random), role(&mut self.random));
        if self.random.chance(50) {
            return format!("r {sender} {receiver}");
        }
        let wide = self.random.pick(&[63, 64, 255, 256, 65535, 65536, u32::MAX]).unwrap_or(64);
        let label = if self.random.chance(5) { wide } else { self.random.below(7) as u32 };
        format!("s {sender} {receiver} {label} {}", payload(&mut self.random))
    }

    /// A line that is malformed, most times made from a good one.
    fn malformed(&mut self) {
        let line = match self.random.below(4) {
            0 => self.random.pick(&MALFORMED).unwrap_or("").to_string(),
            1 => self.wrong_state_line(),
            2 => {
                let good = self.any_call();
                self.spoiled(good)
            }
            _ => {
                let protocol = protocol(&mut self.random);
                let good = with_words(format!("o {} 8192", protocol.roles), &protocol.words);
                self.spoiled(good)
            }
        };
        self.say(line);
        if self.random.chance(50) {
            self.call(false);
        }
    }

    /// A good line with one byte put in, taken out or changed; at times it is still a good line.
    fn spoiled(&mut self, good: String) -> String {
        let mut line = good.into_bytes();
        let byte = self.random.pick(b" +-.x\t\r0123456789").unwrap_or(b' ');
        let at = self.random.below(line.len());
        match self.random.below(3) {
            0 => line.insert(at, byte),
            1 => line[at] = byte,
            _ => {
                line.remove(at);
            }
        }
        // Only ASCII bytes were put in, so this is text still.
        String::from_utf8_lossy(&line).into_owned()
    }

    /// An `h` line with a number too many, too few or too wide for its place.
    fn wrong_state_line(&mut self) -> String {
        let line = state_line(&self.bench.session);
        let mut numbers: Vec<String> = line.split(' ').skip(1).map(str::to_string).collect();
        match self.random.below(6) {
            0 => numbers.push("0".to_string()),
            1 => numbers.truncate(STATE_NUMBERS - 1),
            2 => numbers[self.random.below(MOST_ROLES)] = "65536".to_string(),
            3 => numbers[MOST_ROLES + self.random.below(PAIRS)] = "256".to_string(),
            4 => numbers[MOST_ROLES + PAIRS + self.random.below(PAIRS * DEPTH)] = "256".to_string(),
            _ => numbers[STATE_NUMBERS - 1] = "4294967296".to_string(),
        }
        format!("h {}", numbers.join(" "))
    }

    /// Tables at the edge of their lengths: 256 and 257 rows, in `o` and in `t`.
    fn long(&mut self) {
        let rows = self.random.between(MOST_ROWS - 1, MOST_ROWS + 1);
        let roles = self.random.between(2, MOST_ROLES);
        let mut words = long_table(rows);
        if self.random.chance(30) {
            let at = self.random.below(words.len());
            words[at] = odd_word(&mut self.random, rows);
        }
        if self.random.chance(60) {
            self.opening(roles as u32, roles * words.len(), &words);
        } else {
            let blocks = vec![0; roles * rows * ROW];
            self.say(with_words(format!("t {roles}"), &blocks));
        }
        self.say("f".to_string());
        for _ in 0..self.random.between(1, 12) {
            self.call(true);
        }
    }
}

/// A loop of exchanges between roles 0 and 1 that has this many rows, or one End row more.
fn long_table(rows: usize) -> Vec<u16> {
    let mut words = vec![LOOP, 1, 0, 0];
    while words.len() / ROW + 2 < rows {
        let at = (words.len() / ROW) as u16;
        let sender = at / 2 % 2;
        words.extend([1, sender, 1 - sender, at + 1, ARM, at % 64, at + 2, 0]);
    }
    words.extend([BACK, 0, 0, 0]);
    while words.len() / ROW < rows {
        words.extend([END, 0, 0, 0]);
    }
    words
}

fn with_words(start: String, words: &[u16]) -> String {
    words.iter().fold(start, |mut line, word| {
        line.push(' ');
        line.push_str(&word.to_string());
        line
    })
}

/// Lines that are malformed, one for each way to be so; each is answered `?`.
pub const MALFORMED: [&str; 40] = [
    "",
    " ",
    "x",
    "of",
    "F",
    "f ",
    " f",
    "f 1",
    "ff",
    "o",
    "o ",
    "o 2",
    "o 2 ",
    "o 2 24 ",
    "o  2 24 0 0 0 0",
    "o 2 24 0 0  0 0",
    "o 2 24 0 0 0 65536",
    "o 4294967296 24 0 0 0 0",
    "o 2 4294967296 0 0 0 0",
    "o 2 24,0 0 0 0",
    "t",
    "t ",
    "t -2 0 0 0 0",
    "t 2 0 0 0 0 0 0 0 65536",
    "h",
    "h 0 0 0 0 0 0 0 0",
    "s",
    "s 0 1 5",
    "s 0 1 5 7 9",
    "s 0 1 5 +7",
    "s 0 1 5 7 ",
    "s\t0 1 5 7",
    "s 0 1 4294967296 0",
    "s 0 1 5 99999999999999999999",
    "s 0 1 5 0x7",
    "r",
    "r 0",
    "r 0 1 2",
    "r 0 1\r",
    "r 0 1.0",
];
