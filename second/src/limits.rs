//! The limits of document 01, each stated once.

/// Fewest roles of a protocol.
pub const LEAST_ROLES: u32 = 2;
/// Most roles of a protocol; a session has this many places for roles.
pub const MOST_ROLES: usize = 8;
/// Words in a row.
pub const ROW: usize = 4;
/// Most rows of a table and of a role's block.
pub const MOST_ROWS: usize = 256;
/// Highest label.
pub const TOP_LABEL: u16 = 63;
/// Stands where no label is offered: one past the highest.
pub const NO_LABEL: u8 = TOP_LABEL as u8 + 1;
/// Slots of one ordered pair of roles.
pub const DEPTH: usize = 4;
/// Ordered pairs of roles, a role with itself included.
pub const PAIRS: usize = MOST_ROLES * MOST_ROLES;
/// Slots of all pairs.
pub const SLOTS: usize = PAIRS * DEPTH;

/// Whether a role count is one that a protocol may have.
pub fn roles_in_range(roles: u32) -> bool {
    (LEAST_ROLES..=MOST_ROLES as u32).contains(&roles)
}
