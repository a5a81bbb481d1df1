//! The global table: its rows, its links, and the rules 1, 2 and 4 to 10 with number and place.
//!
//! Each rule is one function that names the lowest row that breaks it. A rule may rely on the rules
//! before it, since `fault` tests them in order over all rows.

use crate::limits::{roles_in_range, MOST_ROWS, ROW, TOP_LABEL};
use crate::numbers::{ACCEPTED, FIELD, KIND, LINK, NAMED, ROLES, TWICE, UNBOUND, UNGUARDED, WORDS};

pub const END: u16 = 0;
pub const EXCHANGE: u16 = 1;
pub const ARM: u16 = 2;
pub const LOOP: u16 = 3;
pub const BACK: u16 = 4;

/// What an opening answers: a number of 'What comes back', and the row or role it is about.
#[derive(Clone, Copy, Debug, PartialEq, Eq)]
pub struct Verdict {
    pub number: u8,
    pub place: u16,
}

impl Verdict {
    pub const ACCEPTED: Verdict = Verdict { number: ACCEPTED, place: 0 };

    /// A refusal; a place is a row or a role, so it fits 16 bits.
    pub fn refused(number: u8, place: usize) -> Verdict {
        Verdict { number, place: place as u16 }
    }
}

/// One row of four words.
pub fn row(words: &[u16], number: usize) -> [u16; 4] {
    let at = number * ROW;
    [words[at], words[at + 1], words[at + 2], words[at + 3]]
}

/// How many rows the words make.
pub fn row_count(words: &[u16]) -> usize {
    words.len() / ROW
}

/// The rows of the chain that starts at an Arm, in order; links must have been tested.
pub fn chain(words: &[u16], first: u16) -> impl Iterator<Item = usize> + '_ {
    std::iter::successors(Some(first as usize), move |&arm| match row(words, arm)[3] {
        0 => None,
        next => Some(next as usize),
    })
}

/// The first of the rules 1 and 2 that is broken; rule 3 needs the room and follows in `opening`.
pub fn size_fault(words: &[u16], roles: u32) -> Option<Verdict> {
    if !words_fit(words.len()) {
        return Some(Verdict::refused(WORDS, 0));
    }
    if !roles_in_range(roles) {
        return Some(Verdict::refused(ROLES, 0));
    }
    None
}

/// The first of the rules 4 to 10 that is broken, with its lowest row; rules 1 and 2 must hold.
pub fn fault(words: &[u16], roles: u32) -> Option<Verdict> {
    type Rule = fn(&[u16], u32) -> Option<usize>;
    const RULES: [(u8, Rule); 7] = [
        (KIND, |words, _| kind_fault(words)),
        (FIELD, field_fault),
        (LINK, |words, _| link_fault(words)),
        (NAMED, |words, _| named_fault(words)),
        (TWICE, |words, _| twice_fault(words)),
        (UNBOUND, |words, _| unbound_fault(words)),
        (UNGUARDED, |words, _| unguarded_fault(words)),
    ];
    RULES.iter().find_map(|(number, rule)| rule(words, roles).map(|place| Verdict::refused(*number, place)))
}

/// Rule 1: a whole number of rows, 1 to 256.
fn words_fit(length: usize) -> bool {
    length != 0 && length.is_multiple_of(ROW) && length <= MOST_ROWS * ROW
}

/// The lowest row that a test finds bad.
fn lowest(words: &[u16], bad: impl Fn(usize, [u16; 4]) -> bool) -> Option<usize> {
    (0..row_count(words)).find(|&number| bad(number, row(words, number)))
}

/// Rule 4.
fn kind_fault(words: &[u16]) -> Option<usize> {
    lowest(words, |_, [kind, ..]| kind > BACK)
}

/// Rule 5. A Back's depth is no field: too great a depth breaks rule 9.
fn field_fault(words: &[u16], roles: u32) -> Option<usize> {
    let out = |role: u16| u32::from(role) >= roles;
    lowest(words, |_, [kind, a, b, c]| match kind {
        END => a != 0 || b != 0 || c != 0,
        EXCHANGE => out(a) || out(b) || a == b,
        ARM => a > TOP_LABEL,
        _ => b != 0 || c != 0,
    })
}

/// Rule 6. A link names a higher row inside the table, of the right kind; only a next arm may be 0.
fn link_fault(words: &[u16]) -> Option<usize> {
    let leads = |from: usize, to: u16, arm_wanted: bool| {
        let to = to as usize;
        to > from && to < row_count(words) && (words[to * ROW] == ARM) == arm_wanted
    };
    lowest(words, |number, [kind, a, b, c]| match kind {
        EXCHANGE => !leads(number, c, true),
        ARM => number == 0 || !leads(number, b, false) || (c != 0 && !leads(number, c, true)),
        LOOP => !leads(number, a, false),
        _ => false,
    })
}

/// The rows that a row's links name.
fn links([kind, a, b, c]: [u16; 4]) -> [Option<usize>; 2] {
    let some = |link: u16| Some(link as usize);
    match kind {
        EXCHANGE => [some(c), None],
        ARM if c != 0 => [some(b), some(c)],
        ARM => [some(b), None],
        LOOP => [some(a), None],
        _ => [None, None],
    }
}

/// Rule 7: the row named is at fault, not a row that names it.
fn named_fault(words: &[u16]) -> Option<usize> {
    let mut named = [0u16; MOST_ROWS];
    for number in 0..row_count(words) {
        for link in links(row(words, number)).into_iter().flatten() {
            named[link] += 1;
        }
    }
    (1..row_count(words)).find(|&number| named[number] != 1)
}

/// Rule 8: the lowest repeating arm over all chains, since chains of nested exchanges interleave.
fn twice_fault(words: &[u16]) -> Option<usize> {
    (0..row_count(words))
        .map(|number| row(words, number))
        .filter(|row| row[0] == EXCHANGE)
        .filter_map(|exchange| first_repeat(words, exchange[3]))
        .min()
}

/// The first arm of one chain that repeats a label of an earlier arm.
fn first_repeat(words: &[u16], first: u16) -> Option<usize> {
    let mut seen = 0u64;
    for arm in chain(words, first) {
        let label = 1u64 << words[arm * ROW + 1];
        if seen & label != 0 {
            return Some(arm);
        }
        seen |= label;
    }
    None
}

/// The row that names each row; by rule 7 there is one for each row but 0.
fn parents(words: &[u16]) -> [usize; MOST_ROWS] {
    let mut parents = [0; MOST_ROWS];
    for number in 0..row_count(words) {
        for link in links(row(words, number)).into_iter().flatten() {
            parents[link] = number;
        }
    }
    parents
}

/// Rule 9: a parent has a lower number than its row, so one pass counts the Loops around each row.
fn unbound_fault(words: &[u16]) -> Option<usize> {
    let parents = parents(words);
    let mut around = [0u16; MOST_ROWS];
    for number in 1..row_count(words) {
        let parent = parents[number];
        around[number] = around[parent] + u16::from(words[parent * ROW] == LOOP);
    }
    lowest(words, |number, [kind, depth, ..]| kind == BACK && depth >= around[number])
}

/// Rule 10.
fn unguarded_fault(words: &[u16]) -> Option<usize> {
    let parents = parents(words);
    lowest(words, |number, [kind, depth, ..]| {
        kind == BACK && only_loops_between(words, &parents, number, depth)
    })
}

/// Whether a walk up from a Back meets nothing but Loops as far as its own Loop.
fn only_loops_between(words: &[u16], parents: &[usize; MOST_ROWS], back: usize, depth: u16) -> bool {
    let mut above = parents[back];
    for _ in 0..depth {
        if words[above * ROW] != LOOP {
            return false;
        }
        above = parents[above];
    }
    words[above * ROW] == LOOP
}
