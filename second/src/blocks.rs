//! The tables of a session: one block of rows for each role, and rule 12 over them.

use crate::limits::{roles_in_range, MOST_ROWS, ROW, TOP_LABEL};
use crate::parts::{RECEIVE, SEND};
use crate::table::{row, ARM, BACK, END, LOOP};

/// Tables that keep rule 12. Only `read` makes one, so each head and each chain walk below ends.
#[derive(Clone, Copy)]
pub struct Blocks<'a> {
    words: &'a [u16],
    pub roles: usize,
    pub rows: usize,
}

impl<'a> Blocks<'a> {
    /// The tables as blocks, if they are well formed for a step.
    pub fn read(words: &'a [u16], roles: u32) -> Option<Blocks<'a>> {
        if !roles_in_range(roles) {
            return None;
        }
        let roles = roles as usize;
        let rows = words.len() / (roles * ROW);
        if rows == 0 || rows > MOST_ROWS || words.len() != roles * rows * ROW {
            return None;
        }
        let blocks = Blocks { words, roles, rows };
        let all = (0..roles).all(|role| {
            let block = blocks.block(role);
            well_formed(block, role, roles)
        });
        all.then_some(blocks)
    }

    fn block(&self, role: usize) -> &'a [u16] {
        &self.words[role * self.rows * ROW..(role + 1) * self.rows * ROW]
    }

    /// One row of a role's block.
    pub fn row(&self, role: usize, number: usize) -> [u16; 4] {
        row(self.block(role), number)
    }

    /// The head of a row that is no Arm.
    pub fn head(&self, role: usize, number: usize) -> usize {
        let block = self.block(role);
        let mut number = number;
        while let Some(next) = follow(block, number) {
            number = next;
        }
        number
    }

    /// The continuation of the arm with a label, in the chain that starts at an Arm; failing that the lowest label
    /// of the chain. The label is wide, since a caller may ask for any number.
    pub fn continuation(&self, role: usize, first: u16, label: u32) -> Result<usize, u8> {
        let block = self.block(role);
        let mut arm = first as usize;
        loop {
            let [_, own, then, next] = row(block, arm);
            if u32::from(own) == label {
                return Ok(then as usize);
            }
            if next == 0 {
                // Labels rise along a chain and are at most 63.
                return Err(row(block, first as usize)[1] as u8);
            }
            arm = next as usize;
        }
    }
}

/// The row that a Loop or Back leads to; none for a Send, Receive or End.
fn follow(block: &[u16], number: usize) -> Option<usize> {
    match block[number * ROW] {
        LOOP | BACK => Some(block[number * ROW + 1] as usize),
        _ => None,
    }
}

/// Rule 12 for one role's block.
fn well_formed(block: &[u16], role: usize, roles: usize) -> bool {
    block[0] != ARM
        && (0..block.len() / ROW).all(|number| row_well_formed(block, number, role, roles))
        && all_have_heads(block)
}

/// Fields, links and labels of one row; reachable or not.
fn row_well_formed(block: &[u16], number: usize, role: usize, roles: usize) -> bool {
    let rows = block.len() / ROW;
    let kind_at = |to: u16| block[to as usize * ROW];
    let above = |to: u16| to as usize > number && (to as usize) < rows;
    let arm = |to: u16| above(to) && kind_at(to) == ARM;
    let other = |to: u16| above(to) && kind_at(to) != ARM;
    let [kind, a, b, c] = row(block, number);
    match kind {
        END => a == 0 && b == 0 && c == 0,
        ARM => a <= TOP_LABEL && other(b) && (c == 0 || (arm(c) && a < block[c as usize * ROW + 1])),
        LOOP => other(a) && b == 0 && c == 0,
        BACK => (a as usize) < number && kind_at(a) == LOOP && b == 0 && c == 0,
        SEND | RECEIVE => (a as usize) < roles && a as usize != role && arm(b) && c == 0,
        _ => false,
    }
}

/// Whether each row that is no Arm has a head. Walks stop at a row that is known to have one, so all
/// walks together take each row once; a walk longer than the block goes round without end.
fn all_have_heads(block: &[u16]) -> bool {
    let rows = block.len() / ROW;
    let mut known = [false; MOST_ROWS];
    for start in 0..rows {
        let mut number = start;
        let mut walked = 0;
        while !known[number] {
            match follow(block, number) {
                None => break,
                Some(_) if walked == rows => return false,
                Some(next) => number = next,
            }
            walked += 1;
        }
        mark_walk(block, start, walked, &mut known);
    }
    true
}

/// Marks the rows of a walk that came to a head.
fn mark_walk(block: &[u16], start: usize, walked: usize, known: &mut [bool; MOST_ROWS]) {
    let mut number = start;
    for _ in 0..walked {
        known[number] = true;
        if let Some(next) = follow(block, number) {
            number = next;
        }
    }
}
