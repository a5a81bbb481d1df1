//! Random rooms, tables, states and arguments, beside those that `second/` makes.

use crate::case::{Call, State};
use crate::reference::narrow;
use second::blocks::Blocks;
use second::hand_made::{blocks_of, chain_labels, changed_tables, payload, random_tables, state};
use second::limits::MOST_ROLES;
use second::lines::Bench;
use second::numbers::ACCEPTED;
use second::parts::{RECEIVE, SEND};
use second::plans::{protocol, Protocol};
use second::random::Random;
use second::Session;

/// A number out of range; most of them are the given one again when they are cut to fewer bits.
pub fn wide(random: &mut Random, number: usize) -> usize {
    let beyond = [8, 16, 32, 63].map(|bits| number.wrapping_add(1 << bits));
    let edges = [MOST_ROLES, 9, 63, 64, 255, u32::MAX as usize, usize::MAX];
    let from: &[usize] = if random.chance(60) { &beyond } else { &edges };
    random.pick(from).unwrap_or(usize::MAX)
}

/// A role count that is mostly out of range.
pub fn odd_roles(random: &mut Random, roles: usize) -> usize {
    let near = [0, 1, 9, roles.wrapping_add(1), roles.wrapping_sub(1)];
    if random.chance(50) {
        random.pick(&near).unwrap_or(0)
    } else {
        wide(random, roles)
    }
}

/// How long a room is, beside the length that is needed.
pub fn room_length(random: &mut Random, need: usize) -> usize {
    match random.below(20) {
        0 => 0,
        1..=2 => need.saturating_sub(1),
        3 => random.below(need + 1),
        4..=6 => need + random.between(1, 64),
        _ => need,
    }
}

/// A room with a word of its own in each place, so that every write shows.
pub fn room(random: &mut Random, length: usize) -> Vec<u16> {
    let first = random.draw() as u16;
    (0..length).map(|at| first.wrapping_add((at as u16).wrapping_mul(40_503))).collect()
}

/// A protocol that opens.
pub fn opened_protocol(random: &mut Random) -> Protocol {
    loop {
        let protocol = protocol(random);
        if blocks_of(&protocol).is_some() {
            return protocol;
        }
    }
}

/// A table of random small words, at times of a length that makes no rows.
pub fn random_words(random: &mut Random) -> Vec<u16> {
    let rows = random.below(6);
    let over = if random.chance(20) { random.between(1, 3) } else { 0 };
    let top = random.between(2, 6);
    (0..rows * 4 + over).map(|_| random.below(top) as u16).collect()
}

/// Role count and blocks made by hand: near opened ones or random, at times of another length or role count.
pub fn hand_made_tables(random: &mut Random) -> (usize, Vec<u16>) {
    let (roles, mut words) = if random.chance(35) {
        random_tables(random)
    } else {
        let protocol = opened_protocol(random);
        changed_tables(random, &protocol)
    };
    let mut roles = roles as usize;
    if random.chance(6) {
        other_length(random, &mut words);
    }
    if random.chance(6) {
        roles = odd_roles(random, roles);
    }
    (roles, words)
}

/// A state over tables, made by hand.
pub fn hand_made_state(random: &mut Random, tables: &[u16], roles: usize) -> State {
    let bench = Bench { tables: tables.to_vec(), roles: narrow(roles), session: Session::ZERO };
    State::of(&state(random, &bench))
}

/// A state of a session's lengths with one word changed.
pub fn damaged_state(random: &mut Random, given: &State) -> State {
    let mut state = given.clone();
    match random.below(4) {
        0 => change(random, &mut state.heads, &[0, 1, 2, 5, 255, 256, 65535]),
        1 => change(random, &mut state.counts, &[0, 1, 2, 4, 5, 64, 255]),
        2 => change(random, &mut state.labels, &[0, 1, 63, 64, 255]),
        _ => change(random, &mut state.payloads, &[0, 1, u32::MAX]),
    }
    state
}

fn change<T: Copy>(random: &mut Random, words: &mut [T], to: &[T]) {
    if let Some(word) = random.pick(to) {
        words[random.below(words.len())] = word;
    }
}

/// A state with one slice or several of another length.
pub fn state_of_other_lengths(random: &mut Random, given: &State) -> State {
    let mut state = given.clone();
    // One bit a slice. Only one differs in half of the states, since a test that leaves it out shows there.
    let which = if random.chance(50) { 1 << random.below(4) } else { random.between(1, 15) };
    if which & 1 != 0 {
        other_length(random, &mut state.heads);
    }
    if which & 2 != 0 {
        other_length(random, &mut state.counts);
    }
    if which & 4 != 0 {
        other_length(random, &mut state.labels);
    }
    if which & 8 != 0 {
        other_length(random, &mut state.payloads);
    }
    state
}

/// Empty, shorter or longer; at times as long as before.
pub fn other_length<T: Clone + From<u8>>(random: &mut Random, words: &mut Vec<T>) {
    let length = words.len();
    let length = match random.below(6) {
        0 => 0,
        1 => length.saturating_sub(1),
        2 => random.below(length + 1),
        3 => length + 1,
        4 => length * 2,
        _ => length + random.between(1, 40),
    };
    let filled = random.below(2) as u8;
    words.resize(length, T::from(filled));
}

/// A call that fits some role's head; its label is at times another. None where no role can act or where the
/// tables or the state are refused.
pub fn likely_call(
    random: &mut Random,
    tables: &[u16],
    roles: usize,
    state: &State,
    eager: bool,
) -> Option<Call> {
    let roles = narrow(roles);
    let session = state.session()?;
    let awaited = session.awaited(tables, roles);
    if awaited.number != ACCEPTED {
        return None;
    }
    let blocks = Blocks::read(tables, roles)?;
    let head = |role: usize| blocks.row(role, usize::from(session.heads[role]));
    // Eager sessions send as long as they can, which fills queues.
    let wanted = |role: &usize| match head(*role)[0] {
        SEND => true,
        RECEIVE => !eager || awaited.count == 1,
        _ => false,
    };
    let awaited_only = random.chance(85) && !eager;
    let able: Vec<usize> = (0..blocks.roles)
        .filter(wanted)
        .filter(|role| !awaited_only || awaited.set >> role & 1 == 1)
        .collect();
    let role = random.pick(&able)?;
    let [kind, peer, first, _] = head(role);
    let peer = usize::from(peer);
    if kind == RECEIVE {
        return Some(Call::Receive { sender: peer, receiver: role });
    }
    let labels = chain_labels(&blocks, role, first);
    let label = if random.chance(8) { 6 } else { usize::from(random.pick(&labels)?) };
    Some(Call::Send { sender: role, receiver: peer, label, payload: payload(random) })
}

/// A call with any roles.
pub fn any_call(random: &mut Random, roles: usize) -> Call {
    let top = roles.clamp(2, MOST_ROLES) + usize::from(random.chance(10));
    let (sender, receiver) = (random.below(top), random.below(top));
    if random.chance(50) {
        Call::Receive { sender, receiver }
    } else {
        Call::Send { sender, receiver, label: random.below(7), payload: payload(random) }
    }
}

/// The call with one argument out of range.
pub fn widened(random: &mut Random, call: Call) -> Call {
    match call {
        Call::Send { sender, receiver, label, payload } => match random.below(3) {
            0 => Call::Send { sender: wide(random, sender), receiver, label, payload },
            1 => Call::Send { sender, receiver: wide(random, receiver), label, payload },
            _ => Call::Send { sender, receiver, label: wide(random, label), payload },
        },
        Call::Receive { sender, receiver } => match random.below(2) {
            0 => Call::Receive { sender: wide(random, sender), receiver },
            _ => Call::Receive { sender, receiver: wide(random, receiver) },
        },
        Call::Open | Call::Fresh | Call::Awaited => call,
    }
}
