//! One call of the boundary with all that is lent to it, and what it leaves.

use second::limits::{MOST_ROLES, PAIRS, SLOTS};
use second::Session;

/// A state as four slices of any lengths.
#[derive(Clone, Debug, Default, PartialEq, Eq)]
pub struct State {
    pub heads: Vec<u16>,
    pub counts: Vec<u8>,
    pub labels: Vec<u8>,
    pub payloads: Vec<u32>,
}

impl State {
    pub fn of(session: &Session) -> State {
        State {
            heads: session.heads.to_vec(),
            counts: session.counts.to_vec(),
            labels: session.labels.to_vec(),
            payloads: session.payloads.to_vec(),
        }
    }

    pub fn has_session_lengths(&self) -> bool {
        self.lengths() == [MOST_ROLES, PAIRS, SLOTS, SLOTS]
    }

    pub fn lengths(&self) -> [usize; 4] {
        [self.heads.len(), self.counts.len(), self.labels.len(), self.payloads.len()]
    }

    /// The session that the slices hold, if they have the lengths of one.
    pub fn session(&self) -> Option<Session> {
        Some(Session {
            heads: <[u16; MOST_ROLES]>::try_from(&self.heads[..]).ok()?,
            counts: <[u8; PAIRS]>::try_from(&self.counts[..]).ok()?,
            labels: <[u8; SLOTS]>::try_from(&self.labels[..]).ok()?,
            payloads: <[u32; SLOTS]>::try_from(&self.payloads[..]).ok()?,
        })
    }
}

/// A call with its arguments, beside tables and roles. They are as wide as the boundary takes them.
#[derive(Clone, Copy, Debug, PartialEq, Eq)]
pub enum Call {
    Open,
    Fresh,
    Send { sender: usize, receiver: usize, label: usize, payload: u32 },
    Receive { sender: usize, receiver: usize },
    Awaited,
}

impl Call {
    pub const NAMES: [&'static str; 5] = ["open", "fresh", "send", "receive", "awaited"];

    /// The place of the call's name.
    pub fn kind(self) -> usize {
        match self {
            Call::Open => 0,
            Call::Fresh => 1,
            Call::Send { .. } => 2,
            Call::Receive { .. } => 3,
            Call::Awaited => 4,
        }
    }
}

/// What a call may write: an opening the room, the others the state. What a call does not take is empty.
#[derive(Clone, Debug, Default, PartialEq, Eq)]
pub struct Memory {
    pub room: Vec<u16>,
    pub state: State,
}

/// A call with all that is lent to it. The tables of an opening are the global table.
#[derive(Clone, Debug)]
pub struct Case {
    pub call: Call,
    pub tables: Vec<u16>,
    pub roles: usize,
    pub memory: Memory,
}

/// What a call answers, and the memory afterwards. The values are place, or what is offered, or label, payload and what is offered, or set, count and lowest;
/// the others are 0.
#[derive(Clone, Debug, PartialEq, Eq)]
pub struct Outcome {
    pub number: u8,
    pub values: [usize; 3],
    pub memory: Memory,
}

/// The places where two memories differ, each said with both words; at most `most` of them.
pub fn differences(ours: &Memory, second: &Memory, most: usize) -> Vec<String> {
    let (one, other) = (&ours.state, &second.state);
    let mut said = Vec::new();
    differing("room", &ours.room, &second.room, &mut said);
    differing("heads", &one.heads, &other.heads, &mut said);
    differing("counts", &one.counts, &other.counts, &mut said);
    differing("labels", &one.labels, &other.labels, &mut said);
    differing("payloads", &one.payloads, &other.payloads, &mut said);
    said.truncate(most);
    said
}

fn differing<T: PartialEq + std::fmt::Display>(name: &str, ours: &[T], second: &[T], said: &mut Vec<String>) {
    let pairs = ours.iter().zip(second).enumerate();
    said.extend(
        pairs
            .filter(|(_, (one, other))| one != other)
            .map(|(at, (one, other))| format!("{name}[{at}]: ours {one}, second {other}")),
    );
}
