//! Tables of a shape, by rows and roles, for measuring.

use second::plans::{rows, Plan};

/// The shapes.
#[derive(Clone, Copy, Debug, PartialEq, Eq)]
pub enum Shape {
    /// A Loop around one exchange after the other, each between a role and the next one.
    Line,
    /// A Loop around a choice of many arms, in each of which the bystanders are told.
    Wide,
    /// Loops inside each other, an exchange in each, and at the bottom a Back to the outermost.
    Loops,
    /// A Loop around a choice of many arms, in each of which a bystander votes alike and then hears a reply of that arm.
    Replies,
    /// A Loop around a choice of two arms, in each of which a bystander votes alike again and again, and then hears a reply of that arm.
    Votes,
}

pub const ALL: [Shape; 5] = [Shape::Line, Shape::Wide, Shape::Loops, Shape::Replies, Shape::Votes];

/// The row counts and role counts that are measured. Each shape has a table of exactly so many rows.
pub const ROWS: [usize; 4] = [16, 64, 128, 256];
pub const ROLES: [usize; 2] = [2, 8];

/// How many variants of a table are opened in turn, so that no single table is opened over and over.
pub const VARIANTS: usize = 16;

/// Labels are 0 to 63, so a choice has at most so many arms.
const MOST_ARMS: usize = 64;

impl Shape {
    pub fn name(self) -> &'static str {
        match self {
            Shape::Line => "line",
            Shape::Wide => "wide",
            Shape::Loops => "loops",
            Shape::Replies => "replies",
            Shape::Votes => "votes",
        }
    }

    /// The global table. A variant has other roles in its exchanges, and the same rows otherwise; variant 0 has the first exchange of
    /// a line between the roles 0 and 1.
    pub fn table(self, row_count: usize, roles: usize, variant: usize) -> Vec<u16> {
        let plan = match self {
            Shape::Line => line(row_count, roles, variant),
            Shape::Wide => wide(row_count, roles, variant),
            Shape::Loops => loops(row_count, roles, variant),
            Shape::Replies => replies(row_count, roles, variant),
            Shape::Votes => votes(row_count, roles, variant),
        };
        rows(&plan, None)
    }
}

/// A Loop and a Back beside two rows for each exchange.
fn line(row_count: usize, roles: usize, variant: usize) -> Plan {
    let exchanges = (row_count - 2) / 2;
    let around = (0..exchanges).rev().fold(Plan::Back(0), |then, at| {
        let (sender, receiver) = talkers(at, roles, variant);
        exchange(sender, receiver, at % 64, then)
    });
    Plan::Loop(Box::new(around))
}

/// A Loop and the choice beside, for each arm, its row, its Back and two rows for each bystander that is told. The
/// rows that are left over are exchanges of the two that know, in the last arm.
fn wide(row_count: usize, roles: usize, variant: usize) -> Plan {
    // In pairs of rows: an arm with its Back is one, an exchange is one.
    let pairs = (row_count - 2) / 2;
    // At least three arms, if need be with fewer bystanders told; the others are in no arm.
    let told = (roles - 2).min(pairs / 3 - 1);
    let count = (pairs / (1 + told)).min(MOST_ARMS);
    let left_over = pairs - count * (1 + told);
    let arms = (0..count).map(|at| {
        let more = if at == count - 1 { left_over } else { 0 };
        let talk = (0..more).fold(Plan::Back(0), |then, _| exchange(0, 1, 0, then));
        let then = (0..told)
            .rev()
            .fold(talk, |then, turn| exchange(1, 2 + (turn + variant) % told.max(1), at, then));
        (at as u16, then)
    });
    Plan::Loop(Box::new(Plan::Exchange(0, 1, arms.collect())))
}

/// Three rows for each Loop with its exchange, and the Back. The rows that are left over are Loops around it all.
fn loops(row_count: usize, roles: usize, variant: usize) -> Plan {
    let (depth, left_over) = ((row_count - 1) / 3, (row_count - 1) % 3);
    let outermost = Plan::Back((depth + left_over - 1) as u16);
    let inner = (0..depth).rev().fold(outermost, |body, at| {
        let (sender, receiver) = talkers(at, roles, variant);
        Plan::Loop(Box::new(exchange(sender, receiver, at % 64, body)))
    });
    (0..left_over).fold(inner, |body, _| Plan::Loop(Box::new(body)))
}

/// A Loop and the choice beside, for each arm, its row, its Back, the vote and the reply. The rows that are left over are exchanges of
/// the two that know, in the last arm.
fn replies(row_count: usize, roles: usize, variant: usize) -> Plan {
    // In pairs of rows: an arm with its Back is one, an exchange is one.
    let pairs = (row_count - 2) / 2;
    let count = (pairs / 3).min(MOST_ARMS);
    late(count, 1, pairs - 3 * count, roles, variant)
}

/// A Loop and the choice beside, for both arms, their row, their Back, the votes and the reply; what is left over likewise.
fn votes(row_count: usize, roles: usize, variant: usize) -> Plan {
    let exchanges = (row_count - 2) / 2 - 2;
    let count = exchanges / 2 - 1;
    late(2, count, exchanges - 2 * (count + 1), roles, variant)
}

/// A choice of so many arms, with so many votes in each and the reply, and more exchanges of the two that know in the last arm.
fn late(arms: usize, votes: usize, more: usize, roles: usize, variant: usize) -> Plan {
    // Of two roles none is a bystander: the one that hears the choice votes.
    let (voter, peer) = if roles == 2 { (1, 0) } else { (2 + variant % (roles - 2), 1) };
    let arm = |at: usize| {
        let more = if at == arms - 1 { more } else { 0 };
        let talk = (0..more).fold(Plan::Back(0), |then, _| exchange(0, 1, 0, then));
        let reply = exchange(peer, voter, at, talk);
        (at as u16, (0..votes).fold(reply, |then, _| exchange(voter, peer, 0, then)))
    };
    Plan::Loop(Box::new(Plan::Exchange(0, 1, (0..arms).map(arm).collect())))
}

/// The roles of an exchange: a role and the next one in variant 0, others in no order that repeats in the others.
fn talkers(at: usize, roles: usize, variant: usize) -> (usize, usize) {
    if variant == 0 {
        return (at % roles, (at + 1) % roles);
    }
    let mixed = (at * VARIANTS + variant).wrapping_mul(0x9E37_79B9_7F4A_7C15) >> 32;
    let sender = mixed % roles;
    (sender, (sender + 1 + mixed / roles % (roles - 1)) % roles)
}

fn exchange(sender: usize, receiver: usize, label: usize, then: Plan) -> Plan {
    Plan::Exchange(sender as u16, receiver as u16, vec![(label as u16, then)])
}
