//! Parts: projection of a global table on a role, merge, and layout into rows of four words.

use crate::limits::{MOST_ROWS, ROW};
use crate::table::{chain, row, row_count, ARM, BACK, END, EXCHANGE, LOOP};
use std::cmp::Ordering;

/// Kinds of a part's action rows; End, Arm, Loop and Back keep the numbers of the global table.
pub const SEND: u16 = 5;
pub const RECEIVE: u16 = 6;

/// What one role does from a row on. Arms stand in rising label order.
#[derive(Clone, Debug, PartialEq, Eq)]
pub enum Part {
    End,
    Back(u16),
    Loop(Box<Part>),
    Send(u16, Vec<Arm>),
    Receive(u16, Vec<Arm>),
}

#[derive(Clone, Debug, PartialEq, Eq)]
pub struct Arm {
    pub label: u16,
    pub then: Part,
}

/// A table that keeps rules 1 to 10, with what lies below each of its rows.
pub struct Projection<'a> {
    words: &'a [u16],
    /// The roles of the Exchanges at and below a row, one bit a role.
    acting: [u8; MOST_ROWS],
    /// How many of the Loops around a row the Backs at and below it reach.
    outward: [u16; MOST_ROWS],
}

impl<'a> Projection<'a> {
    /// Links lead to higher rows, so one pass from the last row up sees what is below each row.
    pub fn new(words: &'a [u16]) -> Projection<'a> {
        let mut acting = [0u8; MOST_ROWS];
        let mut outward = [0u16; MOST_ROWS];
        for number in (0..row_count(words)).rev() {
            let [kind, a, b, c] = row(words, number);
            (acting[number], outward[number]) = match kind {
                EXCHANGE => (acting[c as usize] | 1 << a | 1 << b, outward[c as usize]),
                ARM if c != 0 => {
                    (acting[b as usize] | acting[c as usize], outward[b as usize].max(outward[c as usize]))
                }
                ARM => (acting[b as usize], outward[b as usize]),
                LOOP => (acting[a as usize], outward[a as usize].saturating_sub(1)),
                BACK => (0, a + 1),
                _ => (0, 0),
            };
        }
        Projection { words, acting, outward }
    }

    /// The part of a role in a row, if it has one.
    pub fn part(&self, role: u16, number: usize) -> Option<Part> {
        let [kind, a, b, c] = row(self.words, number);
        match kind {
            EXCHANGE if role == a => Some(Part::Send(b, self.arms(role, c)?)),
            EXCHANGE if role == b => Some(Part::Receive(a, self.arms(role, c)?)),
            EXCHANGE => self.merged_arms(role, c),
            LOOP if self.ends_at_loop(role, number) => Some(Part::End),
            LOOP => Some(Part::Loop(Box::new(self.part(role, a as usize)?))),
            BACK => Some(Part::Back(a)),
            _ => Some(Part::End),
        }
    }

    /// A role is done at a Loop only if it is absent below and no Back leads out of the Loop: through
    /// such a Back the role may be met again.
    fn ends_at_loop(&self, role: u16, number: usize) -> bool {
        self.acting[number] >> role & 1 == 0 && self.outward[number] == 0
    }

    /// All arms of a chain with their parts, in rising label order.
    fn arms(&self, role: u16, first: u16) -> Option<Vec<Arm>> {
        let mut arms = chain(self.words, first)
            .map(|arm| {
                let [_, label, then, _] = row(self.words, arm);
                Some(Arm { label, then: self.part(role, then as usize)? })
            })
            .collect::<Option<Vec<Arm>>>()?;
        arms.sort_by_key(|arm| arm.label);
        Some(arms)
    }

    /// A bystander's part: the merge of the arms' parts from the first arm on.
    fn merged_arms(&self, role: u16, first: u16) -> Option<Part> {
        let mut arms = chain(self.words, first);
        let then = |arm: usize| self.part(role, self.words[arm * ROW + 2] as usize);
        let start = then(arms.next()?)?;
        arms.try_fold(start, |so_far, arm| merge(so_far, then(arm)?))
    }
}

/// The merge of two parts, if they have one.
pub fn merge(one: Part, other: Part) -> Option<Part> {
    match (one, other) {
        (Part::End, Part::End) => Some(Part::End),
        (Part::Back(depth), Part::Back(same)) if depth == same => Some(Part::Back(depth)),
        (Part::Loop(body), Part::Loop(second)) => Some(Part::Loop(Box::new(merge(*body, *second)?))),
        (Part::Receive(peer, arms), Part::Receive(same, others)) if peer == same => {
            Some(Part::Receive(peer, merge_arms(arms, others)?))
        }
        (Part::Send(peer, arms), Part::Send(same, others)) if peer == same && same_labels(&arms, &others) => {
            Some(Part::Send(peer, merge_arms(arms, others)?))
        }
        _ => None,
    }
}

/// Whether two chains have the same label set. A bystander sends without knowing the choice, so each side must let it
/// send what the other does. Labels rise and none is repeated, so that equal sets are equal lists.
fn same_labels(one: &[Arm], other: &[Arm]) -> bool {
    one.iter().map(|arm| arm.label).eq(other.iter().map(|arm| arm.label))
}

/// All labels of either chain in rising order, shared labels merged.
fn merge_arms(one: Vec<Arm>, other: Vec<Arm>) -> Option<Vec<Arm>> {
    let mut merged = Vec::with_capacity(one.len() + other.len());
    let (mut left, mut right) = (one.into_iter().peekable(), other.into_iter().peekable());
    while let (Some(a), Some(b)) = (left.peek(), right.peek()) {
        match a.label.cmp(&b.label) {
            Ordering::Less => merged.extend(left.next()),
            Ordering::Greater => merged.extend(right.next()),
            Ordering::Equal => {
                let (a, b) = left.next().zip(right.next())?;
                merged.push(Arm { label: a.label, then: merge(a.then, b.then)? });
            }
        }
    }
    merged.extend(left);
    merged.extend(right);
    Some(merged)
}

/// Writes a part into a block, rows in the order met, unused words 0.
pub fn lay(part: &Part, block: &mut [u16]) {
    block.fill(0);
    Layout { block, next: 0, loops: Vec::new() }.place(part);
}

/// A block being filled: the next free row, and the rows of the Loops around it, outermost first.
struct Layout<'a> {
    block: &'a mut [u16],
    next: usize,
    loops: Vec<u16>,
}

impl Layout<'_> {
    /// Takes the next row and gives its number. A part has at most the table's rows, so there is one.
    fn take(&mut self, kind: u16) -> usize {
        let number = self.next;
        self.block[number * ROW] = kind;
        self.next += 1;
        number
    }

    /// Places a part and all that follows it; gives the row it stands in.
    fn place(&mut self, part: &Part) -> u16 {
        match part {
            Part::End => self.take(END) as u16,
            Part::Back(depth) => {
                let number = self.take(BACK);
                let around = self.loops.len() - 1 - *depth as usize;
                self.block[number * ROW + 1] = self.loops[around];
                number as u16
            }
            Part::Loop(body) => {
                let number = self.take(LOOP);
                self.loops.push(number as u16);
                self.block[number * ROW + 1] = self.place(body);
                self.loops.pop();
                number as u16
            }
            Part::Send(peer, arms) => self.place_action(SEND, *peer, arms),
            Part::Receive(peer, arms) => self.place_action(RECEIVE, *peer, arms),
        }
    }

    /// An action, then each arm followed by its whole continuation.
    fn place_action(&mut self, kind: u16, peer: u16, arms: &[Arm]) -> u16 {
        let action = self.take(kind);
        self.block[action * ROW + 1] = peer;
        let mut link = action * ROW + 2;
        for arm in arms {
            let number = self.take(ARM);
            self.block[link] = number as u16;
            self.block[number * ROW + 1] = arm.label;
            self.block[number * ROW + 2] = self.place(&arm.then);
            link = number * ROW + 3;
        }
        action as u16
    }
}
