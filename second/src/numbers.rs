//! The numbers that come back, after the list 'What comes back' of document 01.

pub const ACCEPTED: u8 = 0;
pub const WORDS: u8 = 1;
pub const ROLES: u8 = 2;
pub const ROOM: u8 = 3;
pub const KIND: u8 = 4;
pub const FIELD: u8 = 5;
pub const LINK: u8 = 6;
pub const NAMED: u8 = 7;
pub const TWICE: u8 = 8;
pub const UNBOUND: u8 = 9;
pub const UNGUARDED: u8 = 10;
pub const NOPART: u8 = 11;
pub const TABLES: u8 = 12;
pub const STATE: u8 = 13;
pub const PARTY: u8 = 14;
pub const TURN: u8 = 15;
pub const LABEL: u8 = 16;
pub const FULL: u8 = 17;
pub const EMPTY: u8 = 18;
pub const STRAY: u8 = 19;
