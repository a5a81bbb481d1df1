//! A session: the state as a value, rule 13, and the calls fresh, send, receive and awaited.
//!
//! Every call is total: it answers for any tables, any role count, any state and any arguments. The
//! arguments are wide, so that numbers out of range can be said and are refused, not cut off.

use crate::blocks::Blocks;
use crate::limits::{DEPTH, MOST_ROLES, NO_LABEL, PAIRS, SLOTS, TOP_LABEL};
use crate::numbers::{ACCEPTED, EMPTY, FULL, LABEL, PARTY, STATE, STRAY, TABLES, TURN};
use crate::parts::{RECEIVE, SEND};
use crate::table::END;

/// The state. Pairs stand at sender × 8 + receiver; a pair's slots at pair × 4, the oldest first.
#[derive(Clone, Debug, PartialEq, Eq)]
pub struct Session {
    pub heads: [u16; MOST_ROLES],
    pub counts: [u8; PAIRS],
    pub labels: [u8; SLOTS],
    pub payloads: [u32; SLOTS],
}

/// The awaited answer: a bit for each awaited role, their number, and the lowest (8 for none).
#[derive(Clone, Copy, Debug, PartialEq, Eq)]
pub struct Awaited {
    pub number: u8,
    pub set: u8,
    pub count: u8,
    pub lowest: u8,
}

/// What a send answers, beside the state it leaves. Refused with 16, `offered` is the lowest label of the head;
/// else it is 64.
#[derive(Clone, Copy, Debug, PartialEq, Eq)]
pub struct Sent {
    pub number: u8,
    pub offered: u8,
}

/// What a receive answers, beside the state it leaves. Refused with 19, `offered` is the lowest label of the head;
/// else it is 64.
#[derive(Clone, Copy, Debug, PartialEq, Eq)]
pub struct Received {
    pub number: u8,
    pub label: u8,
    pub payload: u32,
    pub offered: u8,
}

/// Why a call is refused, and the label that would have been taken.
struct Refusal {
    number: u8,
    offered: u8,
}

impl From<u8> for Refusal {
    /// Every refusal but that of an arm lookup offers no label.
    fn from(number: u8) -> Refusal {
        Refusal { number, offered: NO_LABEL }
    }
}

/// A call that is accepted: whose head moves, where to, and over which pair.
struct Move {
    role: usize,
    head: usize,
    pair: usize,
}

/// A fresh state for tables: every role at the head of row 0, queues empty. All zeros for bad tables.
pub fn fresh(tables: &[u16], roles: u32) -> (u8, Session) {
    let mut session = Session::ZERO;
    let Some(blocks) = Blocks::read(tables, roles) else {
        return (TABLES, session);
    };
    for role in 0..blocks.roles {
        session.heads[role] = blocks.head(role, 0) as u16;
    }
    (ACCEPTED, session)
}

impl Session {
    /// The state that is all zeros.
    pub const ZERO: Session =
        Session { heads: [0; MOST_ROLES], counts: [0; PAIRS], labels: [0; SLOTS], payloads: [0; SLOTS] };

    /// A send; refused, the state comes back as it was given.
    pub fn send(
        mut self,
        tables: &[u16],
        roles: u32,
        sender: u32,
        receiver: u32,
        label: u32,
        payload: u32,
    ) -> (Sent, Session) {
        match self.judge_send(tables, roles, sender, receiver, label) {
            Err(Refusal { number, offered }) => (Sent { number, offered }, self),
            Ok(accepted) => {
                self.heads[accepted.role] = accepted.head as u16;
                // LABEL was tested, so the label is at most 63.
                self.append(accepted.pair, label as u8, payload);
                (Sent { number: ACCEPTED, offered: NO_LABEL }, self)
            }
        }
    }

    /// A receive; refused, label and payload are 0 and the state comes back as it was given.
    pub fn receive(mut self, tables: &[u16], roles: u32, sender: u32, receiver: u32) -> (Received, Session) {
        match self.judge_receive(tables, roles, sender, receiver) {
            Err(Refusal { number, offered }) => (Received { number, label: 0, payload: 0, offered }, self),
            Ok(accepted) => {
                self.heads[accepted.role] = accepted.head as u16;
                let (label, payload) = self.take_oldest(accepted.pair);
                (Received { number: ACCEPTED, label, payload, offered: NO_LABEL }, self)
            }
        }
    }

    /// The roles that have a call which would be accepted.
    pub fn awaited(&self, tables: &[u16], roles: u32) -> Awaited {
        match self.read(tables, roles) {
            Err(number) => Awaited { number, set: 0, count: 0, lowest: MOST_ROLES as u8 },
            Ok(blocks) => {
                let set = (0..blocks.roles)
                    .filter(|&role| self.is_awaited(&blocks, role))
                    .fold(0u8, |set, role| set | 1 << role);
                Awaited {
                    number: ACCEPTED,
                    set,
                    count: set.count_ones() as u8,
                    lowest: set.trailing_zeros() as u8,
                }
            }
        }
    }

    /// Rules 12 and 13.
    fn read<'a>(&self, tables: &'a [u16], roles: u32) -> Result<Blocks<'a>, u8> {
        let blocks = Blocks::read(tables, roles).ok_or(TABLES)?;
        if self.well_formed(&blocks) {
            Ok(blocks)
        } else {
            Err(STATE)
        }
    }

    /// Rules 12 to 17.
    fn judge_send(
        &self,
        tables: &[u16],
        roles: u32,
        sender: u32,
        receiver: u32,
        label: u32,
    ) -> Result<Move, Refusal> {
        let blocks = self.read(tables, roles)?;
        let (sender, receiver) = parties(roles, sender, receiver)?;
        let first = self.turn(&blocks, sender, SEND, receiver)?;
        let then = blocks
            .continuation(sender, first, label)
            .map_err(|offered| Refusal { number: LABEL, offered })?;
        let pair = pair(sender, receiver);
        if self.counts[pair] as usize == DEPTH {
            return Err(FULL.into());
        }
        Ok(Move { role: sender, head: blocks.head(sender, then), pair })
    }

    /// Rules 12 to 15, 18 and 19.
    fn judge_receive(&self, tables: &[u16], roles: u32, sender: u32, receiver: u32) -> Result<Move, Refusal> {
        let blocks = self.read(tables, roles)?;
        let (sender, receiver) = parties(roles, sender, receiver)?;
        let first = self.turn(&blocks, receiver, RECEIVE, sender)?;
        let pair = pair(sender, receiver);
        let label = self.oldest_label(pair).ok_or(EMPTY)?;
        let then = blocks
            .continuation(receiver, first, label)
            .map_err(|offered| Refusal { number: STRAY, offered })?;
        Ok(Move { role: receiver, head: blocks.head(receiver, then), pair })
    }

    /// The first arm of a role's head, if the head is an action of that kind with that peer.
    fn turn(&self, blocks: &Blocks, role: usize, kind: u16, peer: usize) -> Result<u16, u8> {
        let [own_kind, own_peer, first, _] = blocks.row(role, self.heads[role] as usize);
        if own_kind == kind && own_peer as usize == peer {
            Ok(first)
        } else {
            Err(TURN)
        }
    }

    /// A Send is awaited while its pair has room; a Receive once a message with one of its labels is held.
    fn is_awaited(&self, blocks: &Blocks, role: usize) -> bool {
        let [kind, peer, first, _] = blocks.row(role, self.heads[role] as usize);
        match kind {
            SEND => (self.counts[pair(role, peer as usize)] as usize) < DEPTH,
            RECEIVE => self
                .oldest_label(pair(peer as usize, role))
                .is_some_and(|label| blocks.continuation(role, first, label).is_ok()),
            _ => false,
        }
    }

    /// Rule 13.
    fn well_formed(&self, blocks: &Blocks) -> bool {
        let heads = (0..MOST_ROLES).all(|role| self.head_well_formed(blocks, role));
        let queue = |sender: usize, receiver: usize| {
            let present = sender < blocks.roles && receiver < blocks.roles && sender != receiver;
            self.queue_well_formed(pair(sender, receiver), if present { DEPTH } else { 0 })
        };
        heads && (0..MOST_ROLES).all(|sender| (0..MOST_ROLES).all(|receiver| queue(sender, receiver)))
    }

    /// A present role's head is a Send, Receive or End of its block; an absent role's is 0.
    fn head_well_formed(&self, blocks: &Blocks, role: usize) -> bool {
        let head = self.heads[role] as usize;
        if role >= blocks.roles {
            return head == 0;
        }
        head < blocks.rows && matches!(blocks.row(role, head)[0], END | SEND | RECEIVE)
    }

    /// At most `room` messages, labels at most 63, unused slots 0.
    fn queue_well_formed(&self, pair: usize, room: usize) -> bool {
        let count = self.counts[pair] as usize;
        count <= room
            && (0..DEPTH).all(|slot| {
                let at = pair * DEPTH + slot;
                if slot < count {
                    u16::from(self.labels[at]) <= TOP_LABEL
                } else {
                    self.labels[at] == 0 && self.payloads[at] == 0
                }
            })
    }

    fn oldest_label(&self, pair: usize) -> Option<u32> {
        (self.counts[pair] > 0).then(|| u32::from(self.labels[pair * DEPTH]))
    }

    /// Puts a message behind the others of a pair that has room.
    fn append(&mut self, pair: usize, label: u8, payload: u32) {
        let at = pair * DEPTH + self.counts[pair] as usize;
        self.labels[at] = label;
        self.payloads[at] = payload;
        self.counts[pair] += 1;
    }

    /// Takes the oldest message; the others move up, so that the oldest is always in the first slot.
    fn take_oldest(&mut self, pair: usize) -> (u8, u32) {
        let slots = pair * DEPTH..(pair + 1) * DEPTH;
        let (labels, payloads) = (&mut self.labels[slots.clone()], &mut self.payloads[slots]);
        let oldest = (labels[0], payloads[0]);
        labels.rotate_left(1);
        payloads.rotate_left(1);
        labels[DEPTH - 1] = 0;
        payloads[DEPTH - 1] = 0;
        self.counts[pair] -= 1;
        oldest
    }
}

/// The place of an ordered pair in the counts.
pub fn pair(sender: usize, receiver: usize) -> usize {
    sender * MOST_ROLES + receiver
}

/// Rule 14.
fn parties(roles: u32, sender: u32, receiver: u32) -> Result<(usize, usize), u8> {
    if sender >= roles || receiver >= roles || sender == receiver {
        return Err(PARTY);
    }
    Ok((sender as usize, receiver as usize))
}
