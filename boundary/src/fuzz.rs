//! Random calls through the boundary, each compared with `second/`: number, place, values, the whole room and the whole state.
//! The calls depend on the seed alone.

use crate::case::{differences, Call, Case, Memory, Outcome, State};
use crate::fault;
use crate::inputs::{
    any_call, damaged_state, hand_made_state, hand_made_tables, likely_call, odd_roles, opened_protocol,
    other_length, random_words, room, room_length, state_of_other_lengths, widened,
};
use crate::lending::Keeping;
use crate::ours::{Buffers, Way};
use crate::tally::{Tally, NUMBERS};
use crate::{reference, shapes};
use second::cases::PINNED;
use second::limits::{MOST_ROLES, MOST_ROWS, ROW};
use second::marked::MARKED;
use second::numbers::ACCEPTED;
use second::plans::{damage, odd_word, protocol};
use second::random::Random;
use second::Session;
use std::fmt;

/// The first case in which the two differ.
#[derive(Debug)]
pub struct Difference {
    seed: u64,
    call: u64,
    case: Case,
    keeping: Keeping,
    way: Way,
    ours: Result<Outcome, String>,
    second: Outcome,
}

impl fmt::Display for Difference {
    fn fmt(&self, to: &mut fmt::Formatter) -> fmt::Result {
        let lengths = self.case.memory.state.lengths();
        writeln!(
            to,
            "seed {}, call {}: {:?}, {:?}, {:?}",
            self.seed, self.call, self.case.call, self.keeping, self.way
        )?;
        writeln!(
            to,
            "roles {}, tables of {} words: {:?}",
            self.case.roles,
            self.case.tables.len(),
            self.case.tables
        )?;
        writeln!(to, "room of {} words, state of lengths {lengths:?}", self.case.memory.room.len())?;
        match &self.ours {
            Ok(ours) => writeln!(to, "ours:   number {}, values {:?}", ours.number, ours.values)?,
            Err(what) => writeln!(to, "ours:   {what}")?,
        }
        writeln!(to, "second: number {}, values {:?}", self.second.number, self.second.values)?;
        let places = match &self.ours {
            Ok(ours) => differences(&ours.memory, &self.second.memory, 16),
            Err(_) => Vec::new(),
        };
        places.iter().try_for_each(|place| writeln!(to, "{place}"))
    }
}

/// Why a run stops.
enum Stop {
    Enough,
    Differs(Box<Difference>),
}

/// Makes exactly so many calls, or stops at the first difference.
pub fn run(seed: u64, calls: u64) -> Result<Tally, Box<Difference>> {
    let mut fuzz = Fuzz {
        random: Random::new(seed),
        tally: Tally { seed, ..Tally::default() },
        calls,
        tables: Vec::new(),
        roles: 0,
        state: State::of(&Session::ZERO),
        buffers: Buffers::default(),
    };
    loop {
        match fuzz.scene() {
            Ok(()) => {}
            Err(Stop::Enough) => return Ok(fuzz.tally),
            Err(Stop::Differs(difference)) => return Err(difference),
        }
    }
}

/// The tables and the state that calls are made over.
struct Fuzz {
    random: Random,
    tally: Tally,
    calls: u64,
    tables: Vec<u16>,
    roles: usize,
    state: State,
    buffers: Buffers,
}

impl Fuzz {
    fn scene(&mut self) -> Result<(), Stop> {
        match self.random.below(100) {
            0..=14 => self.opened_session(),
            15..=69 => self.damaged_opening(),
            70..=75 => self.random_opening(),
            76..=79 => self.pinned_opening(),
            80..=97 => self.hand_made(),
            _ => self.long(),
        }
    }

    /// Makes a call on both sides and compares all that it leaves.
    fn make(&mut self, case: Case) -> Result<Outcome, Stop> {
        if self.tally.calls == self.calls {
            return Err(Stop::Enough);
        }
        let keeping = if self.random.chance(50) { Keeping::Before } else { Keeping::Behind };
        let way = if self.random.chance(50) { Way::Declared } else { Way::Bare };
        let second = reference::outcome(&case);
        fault::note(self.tally.seed, self.tally.calls + 1);
        let ours = self.buffers.outcome(&case, keeping, way);
        if ours.as_ref() != Ok(&second) {
            let (seed, call) = (self.tally.seed, self.tally.calls + 1);
            return Err(Stop::Differs(Box::new(Difference { seed, call, case, keeping, way, ours, second })));
        }
        self.tally.count(&case, second.number, keeping, way);
        Ok(second)
    }

    /// Opens a table; the tables of later calls are the first roles × words of the room, opened or not.
    fn open(&mut self, table: &[u16], roles: usize, room_words: usize) -> Result<u8, Stop> {
        let memory = Memory { room: room(&mut self.random, room_words), state: State::default() };
        let outcome = self.make(Case { call: Call::Open, tables: table.to_vec(), roles, memory })?;
        let mut tables = outcome.memory.room;
        tables.truncate(roles.saturating_mul(table.len()));
        (self.tables, self.roles) = (tables, roles);
        Ok(outcome.number)
    }

    /// A call over the held tables and the held state.
    fn case(&self, call: Call) -> Case {
        let memory = Memory { room: Vec::new(), state: self.state.clone() };
        Case { call, tables: self.tables.clone(), roles: self.roles, memory }
    }

    /// Makes a call; the held state becomes what the call leaves.
    fn call(&mut self, call: Call) -> Result<(), Stop> {
        self.state = self.make(self.case(call))?.memory.state;
        Ok(())
    }

    /// One call of a session, at times behind one that is spoiled and whose state is dropped.
    fn next_call(&mut self, eager: bool) -> Result<(), Stop> {
        let call = self.choose(eager);
        if self.random.chance(15) {
            let spoiled = self.spoiled(call);
            self.make(spoiled)?;
        }
        self.call(call)
    }

    /// A call with one thing changed: a length, a word of the state, an argument, the role count.
    fn spoiled(&mut self, call: Call) -> Case {
        let mut case = self.case(call);
        match self.random.below(15) {
            0..=2 => case.memory.state = state_of_other_lengths(&mut self.random, &self.state),
            3 => {
                case.call = Call::Fresh;
                case.memory.state = state_of_other_lengths(&mut self.random, &self.state);
            }
            4..=7 => case.memory.state = damaged_state(&mut self.random, &self.state),
            8..=10 => case.call = widened(&mut self.random, call),
            11..=12 => case.roles = odd_roles(&mut self.random, self.roles),
            _ => other_length(&mut self.random, &mut case.tables),
        }
        case
    }

    fn choose(&mut self, eager: bool) -> Call {
        match self.random.below(100) {
            0..=14 => Call::Awaited,
            15 => Call::Fresh,
            16..=25 => any_call(&mut self.random, self.roles),
            _ => likely_call(&mut self.random, &self.tables, self.roles, &self.state, eager)
                .unwrap_or_else(|| any_call(&mut self.random, self.roles)),
        }
    }

    fn calls(&mut self, least: usize, most: usize) -> Result<(), Stop> {
        let eager = self.random.chance(40);
        for _ in 0..self.random.between(least, most) {
            self.next_call(eager)?;
        }
        Ok(())
    }

    /// A table that opens, and calls from a fresh state; without the fresh state the last one is used on.
    fn opened_session(&mut self) -> Result<(), Stop> {
        let protocol = opened_protocol(&mut self.random);
        let roles = protocol.roles as usize;
        let over = if self.random.chance(80) { 0 } else { self.random.between(1, 200) };
        self.open(&protocol.words, roles, roles * protocol.words.len() + over)?;
        if self.random.chance(95) {
            self.call(Call::Fresh)?;
        }
        self.calls(3, 50)
    }

    /// One or two faults in a table, a room of any length, at times an odd role count.
    fn damaged_opening(&mut self) -> Result<(), Stop> {
        let mut protocol = protocol(&mut self.random);
        for _ in 0..self.random.between(0, 2) {
            damage(&mut self.random, &mut protocol);
        }
        let roles = protocol.roles as usize;
        let roles = if self.random.chance(5) { odd_roles(&mut self.random, roles) } else { roles };
        self.open_and_try(&protocol.words, roles)
    }

    fn random_opening(&mut self) -> Result<(), Stop> {
        let words = random_words(&mut self.random);
        let roles = self.random.between(0, 9);
        self.open_and_try(&words, roles)
    }

    /// The marked tables, and those that pin a reading.
    fn pinned_opening(&mut self) -> Result<(), Stop> {
        let marked = MARKED.iter().map(|table| (table.roles, table.words));
        let all: Vec<(u32, &[u16])> = marked.chain(PINNED).collect();
        let (roles, words) = all[self.random.below(all.len())];
        self.open_and_try(words, roles as usize)
    }

    /// Opens with a room of any length and, at times, makes a few calls over what stands in the room then.
    fn open_and_try(&mut self, table: &[u16], roles: usize) -> Result<(), Stop> {
        let need = roles.min(MOST_ROLES + 1) * table.len();
        let room_words = room_length(&mut self.random, need);
        let number = self.open(table, roles, room_words)?;
        if number == ACCEPTED || self.random.chance(10) {
            self.call(Call::Fresh)?;
            return self.calls(1, 4);
        }
        Ok(())
    }

    /// Tables and states made by hand.
    fn hand_made(&mut self) -> Result<(), Stop> {
        (self.roles, self.tables) = hand_made_tables(&mut self.random);
        if self.random.chance(50) {
            self.call(Call::Fresh)?;
        }
        for _ in 0..self.random.between(1, 2) {
            self.state = hand_made_state(&mut self.random, &self.tables, self.roles);
            self.calls(1, 6)?;
        }
        Ok(())
    }

    /// Tables at the edge of their length: 255 to 257 rows, at times with a word changed.
    fn long(&mut self) -> Result<(), Stop> {
        let roles = self.random.between(2, MOST_ROLES);
        let shape = self.random.pick(&shapes::ALL).unwrap_or(shapes::Shape::Line);
        let mut words = shape.table(MOST_ROWS, roles, self.random.below(shapes::VARIANTS));
        let rows = self.random.between(MOST_ROWS - 1, MOST_ROWS + 1);
        words.resize(if self.random.chance(70) { words.len() } else { rows * ROW }, 0);
        if self.random.chance(30) {
            let at = self.random.below(words.len());
            words[at] = odd_word(&mut self.random, rows);
        }
        self.open_and_try(&words, roles)?;
        self.calls(0, 8)
    }
}

/// So many calls that each number 0 to 19 must have come.
pub const ENOUGH: u64 = 1_000_000;

/// What a tally lacks.
pub fn lacks(tally: &Tally) -> Option<String> {
    let missing = tally.missing();
    let due = tally.calls >= ENOUGH && !missing.is_empty();
    due.then(|| format!("of the {NUMBERS} numbers these never came: {missing:?}"))
}
