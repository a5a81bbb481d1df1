//! Hand-made tables and states: near those that an opening and calls make, or random and often well formed.

use crate::blocks::Blocks;
use crate::limits::{DEPTH, MOST_ROLES, PAIRS, ROW};
use crate::lines::Bench;
use crate::numbers::ACCEPTED;
use crate::opening::open;
use crate::parts::{RECEIVE, SEND};
use crate::plans::{odd_word, Protocol};
use crate::random::Random;
use crate::session::{fresh, pair, Session};
use crate::table::{ARM, BACK, END, LOOP};

/// The blocks that an opening writes, if it is accepted.
pub fn blocks_of(protocol: &Protocol) -> Option<Vec<u16>> {
    let mut room = vec![0; protocol.roles as usize * protocol.words.len()];
    (open(&protocol.words, protocol.roles, &mut room).number == ACCEPTED).then_some(room)
}

/// The labels of a chain.
pub fn chain_labels(blocks: &Blocks, role: usize, first: u16) -> Vec<u16> {
    let mut labels = Vec::new();
    let mut arm = first;
    loop {
        let [_, label, _, next] = blocks.row(role, arm as usize);
        labels.push(label);
        if next == 0 {
            return labels;
        }
        arm = next;
    }
}

/// A payload, at times at an edge.
pub fn payload(random: &mut Random) -> u32 {
    let wide = random.draw() as u32;
    random.pick(&[0, 1, 7, wide, u32::MAX]).unwrap_or(0)
}

/// The blocks of a table that opens with up to two words changed, at times with another role count or cut short.
pub fn changed_tables(random: &mut Random, protocol: &Protocol) -> (u32, Vec<u16>) {
    let mut words = blocks_of(protocol).unwrap_or_else(|| vec![0; protocol.roles as usize * ROW]);
    let rows = words.len() / (protocol.roles as usize * ROW);
    for _ in 0..random.below(3) {
        let at = random.below(words.len());
        words[at] = match random.below(3) {
            0 => odd_word(random, rows),
            1 => random.below(rows) as u16,
            _ => random.below(7) as u16,
        };
    }
    if random.chance(3) {
        words.truncate(words.len() - random.between(1, 4));
    }
    let roles = match random.below(40) {
        0 => 0,
        1 => protocol.roles + 1,
        2 => u32::MAX,
        _ => protocol.roles,
    };
    (roles, words)
}

/// Blocks of random rows, links shared, many of them well formed.
pub fn random_tables(random: &mut Random) -> (u32, Vec<u16>) {
    let roles = if random.chance(80) { random.between(2, 4) } else { random.between(2, MOST_ROLES) };
    let rows = random.between(1, 12);
    let words = (0..roles).flat_map(|role| random_block(random, role, roles, rows)).collect();
    (roles as u32, words)
}

/// Kinds first, then fields that fit them; a row whose links have nowhere to lead becomes an End.
fn random_block(random: &mut Random, role: usize, roles: usize, rows: usize) -> Vec<u16> {
    const KINDS: [u16; 10] = [END, ARM, ARM, ARM, LOOP, BACK, SEND, SEND, RECEIVE, RECEIVE];
    let mut kinds: Vec<u16> = (0..rows).map(|_| random.pick(&KINDS).unwrap_or(END)).collect();
    if kinds[0] == ARM {
        kinds[0] = RECEIVE;
    }
    // From the last row up, so that the rows that links lead to are settled before.
    let mut block = vec![0; rows * ROW];
    for number in (0..rows).rev() {
        let row = random_row(random, number, &kinds, &block, (role, roles)).unwrap_or([END, 0, 0, 0]);
        kinds[number] = row[0];
        block[number * ROW..(number + 1) * ROW].copy_from_slice(&row);
    }
    block
}

fn random_row(
    random: &mut Random,
    number: usize,
    kinds: &[u16],
    block: &[u16],
    (role, roles): (usize, usize),
) -> Option<[u16; 4]> {
    let higher = |wanted: &dyn Fn(usize) -> bool| -> Vec<u16> {
        (number + 1..kinds.len()).filter(|&to| wanted(to)).map(|to| to as u16).collect()
    };
    let others = higher(&|to| kinds[to] != ARM);
    match kinds[number] {
        LOOP => Some([LOOP, random.pick(&others)?, 0, 0]),
        BACK => {
            let lower = (0..number).filter(|&to| kinds[to] == LOOP).map(|to| to as u16);
            Some([BACK, random.pick(&lower.collect::<Vec<_>>())?, 0, 0])
        }
        ARM => {
            let label = random.below(5) as u16;
            let then = random.pick(&others)?;
            let next = higher(&|to| kinds[to] == ARM && block[to * ROW + 1] > label);
            let next = if random.chance(60) { random.pick(&next) } else { None };
            Some([ARM, label, then, next.unwrap_or(0)])
        }
        kind @ (SEND | RECEIVE) => {
            let peer = (role + 1 + random.below(roles - 1)) % roles;
            let first = random.pick(&higher(&|to| kinds[to] == ARM))?;
            Some([kind, peer as u16, first, 0])
        }
        _ => None,
    }
}

/// A state over the tables that a bench holds: heads moved, queues filled, at times damaged.
pub fn state(random: &mut Random, bench: &Bench) -> Session {
    let mut state = match Blocks::read(&bench.tables, bench.roles) {
        None => bench.session.clone(),
        Some(blocks) => {
            let mut state = fresh(&bench.tables, bench.roles).1;
            move_heads(random, &blocks, &mut state);
            fill_queues(random, &blocks, &mut state);
            state
        }
    };
    if random.chance(25) {
        damage_state(random, &mut state);
    }
    state
}

fn move_heads(random: &mut Random, blocks: &Blocks, state: &mut Session) {
    for role in 0..blocks.roles {
        let action = |&number: &usize| matches!(blocks.row(role, number)[0], SEND | RECEIVE);
        let actions: Vec<usize> = (0..blocks.rows).filter(action).collect();
        if random.chance(50) {
            if let Some(action) = random.pick(&actions) {
                state.heads[role] = action as u16;
            }
        } else if random.chance(2) {
            state.heads[role] = random.below(blocks.rows + 1) as u16;
        }
    }
}

/// Fills queues that heads wait for or send into.
fn fill_queues(random: &mut Random, blocks: &Blocks, state: &mut Session) {
    for role in 0..blocks.roles {
        let head = state.heads[role] as usize;
        if head >= blocks.rows {
            continue;
        }
        let [kind, peer, first, _] = blocks.row(role, head);
        let (pair, labels) = match kind {
            RECEIVE => (pair(peer as usize, role), chain_labels(blocks, role, first)),
            SEND => (pair(role, peer as usize), Vec::new()),
            _ => continue,
        };
        if random.chance(60) {
            fill_queue(random, state, pair, &labels);
        }
    }
}

/// Up to four messages, most of them with one of the labels.
fn fill_queue(random: &mut Random, state: &mut Session, pair: usize, labels: &[u16]) {
    let count = random.below(DEPTH + 1);
    state.counts[pair] = count as u8;
    for slot in 0..DEPTH {
        let known = if random.chance(75) { random.pick(labels) } else { None };
        let label = known.unwrap_or(random.below(64) as u16) as u8;
        let held = if slot < count { (label, payload(random)) } else { (0, 0) };
        (state.labels[pair * DEPTH + slot], state.payloads[pair * DEPTH + slot]) = held;
    }
}

/// One number of a state changed so that it is likely to break rule 13.
fn damage_state(random: &mut Random, state: &mut Session) {
    let some_role = random.below(MOST_ROLES);
    let some_pair = random.below(PAIRS);
    let some_slot = some_pair * DEPTH + random.below(DEPTH);
    match random.below(8) {
        0 => state.counts[some_pair] = random.pick(&[1, 4, 5, 64, 255]).unwrap_or(5),
        1 => state.labels[some_slot] = random.pick(&[1, 63, 64, 255]).unwrap_or(64),
        2 => state.payloads[some_slot] = payload(random),
        3 => state.heads[some_role] = random.pick(&[1, 2, 255, 256, 65535]).unwrap_or(1),
        4 => state.counts[pair(some_role, some_role)] = 1,
        5 => state.heads[MOST_ROLES - 1] = 1,
        6 => wide_label(state),
        _ => state.heads[some_role] = random.below(20) as u16,
    }
}

/// A used slot with a label over 63.
fn wide_label(state: &mut Session) {
    state.counts[1] = 2;
    state.labels[DEPTH..DEPTH + 2].copy_from_slice(&[0, 64]);
}
