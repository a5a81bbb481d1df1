//! The marked tables T1 to T13 of document 01, as constant numbers, with their answers; T8's is that of document 02, K4.

pub struct Marked {
    pub name: &'static str,
    pub roles: u32,
    pub words: &'static [u16],
    pub number: u8,
    pub place: u16,
}

const fn marked(name: &'static str, roles: u32, words: &'static [u16], number: u8, place: u16) -> Marked {
    Marked { name, roles, words, number, place }
}

const T1: &[u16] = &[1, 0, 1, 1, 2, 5, 2, 0, 0, 0, 0, 0];
const T2: &[u16] = &[
    1, 0, 1, 1, 2, 1, 2, 5, 1, 1, 2, 3, 2, 3, 4, 0, 0, 0, 0, 0, 2, 2, 6, 0, 1, 1, 2, 7, 2, 4, 8, 0, 0, 0, 0,
    0,
];
const T3: &[u16] = &[
    1, 0, 1, 1, 2, 1, 2, 5, 1, 1, 2, 3, 2, 3, 4, 0, 0, 0, 0, 0, 2, 2, 6, 0, 1, 0, 2, 7, 2, 4, 8, 0, 0, 0, 0,
    0,
];
const T4: &[u16] = &[1, 0, 1, 1, 2, 1, 2, 5, 1, 1, 2, 3, 2, 3, 4, 0, 0, 0, 0, 0, 2, 2, 6, 0, 0, 0, 0, 0];
const T5: &[u16] = &[3, 1, 0, 0, 1, 0, 1, 2, 2, 1, 3, 4, 4, 0, 0, 0, 2, 2, 5, 0, 0, 0, 0, 0];
const T6: &[u16] = &[3, 1, 0, 0, 4, 0, 0, 0];
const T7: &[u16] = &[3, 1, 0, 0, 1, 2, 0, 2, 2, 7, 3, 0, 3, 4, 0, 0, 1, 0, 1, 5, 2, 8, 6, 0, 4, 1, 0, 0];
const T8: &[u16] = &[
    1, 0, 1, 1, 2, 1, 2, 7, 1, 2, 1, 3, 2, 5, 4, 0, 1, 1, 2, 5, 2, 6, 6, 0, 0, 0, 0, 0, 2, 2, 8, 0, 1, 2, 1,
    9, 2, 5, 10, 0, 1, 1, 2, 11, 2, 7, 12, 0, 0, 0, 0, 0,
];
const T9: &[u16] = &[0, 0, 0, 0];
const T11: &[u16] = &[1, 0, 0, 1, 2, 5, 2, 0, 0, 0, 0, 0];
const T12: &[u16] = &[
    1, 0, 1, 1, 2, 1, 2, 5, 1, 1, 2, 3, 2, 3, 4, 0, 0, 0, 0, 0, 2, 1, 6, 0, 1, 1, 2, 7, 2, 4, 8, 0, 0, 0, 0,
    0,
];
const T13: &[u16] = &[1, 0, 1, 1, 2, 5, 2, 0, 4, 0, 0, 0];

pub const MARKED: [Marked; 13] = [
    marked("T1", 2, T1, 0, 0),
    marked("T2", 3, T2, 0, 0),
    marked("T3", 3, T3, 11, 2),
    marked("T4", 3, T4, 11, 2),
    marked("T5", 3, T5, 0, 0),
    marked("T6", 2, T6, 10, 1),
    marked("T7", 3, T7, 0, 0),
    marked("T8", 3, T8, 0, 0),
    marked("T9", 2, T9, 0, 0),
    marked("T10", 9, T1, 2, 0),
    marked("T11", 2, T11, 5, 0),
    marked("T12", 3, T12, 8, 5),
    marked("T13", 2, T13, 9, 2),
];

/// The marked table of a name.
pub fn marked_table(name: &str) -> Option<&'static Marked> {
    MARKED.iter().find(|table| table.name == name)
}
