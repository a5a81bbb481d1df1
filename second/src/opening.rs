//! Opening a protocol: rules 1 to 11 in order, then the parts of all roles written into the room.

use crate::numbers::{NOPART, ROOM};
use crate::parts::{lay, Part, Projection};
use crate::table::{fault, size_fault, Verdict};

/// Opens a global table for a number of roles. Accepted, the blocks fill the first roles × length words
/// of the room; refused, the room keeps all its contents.
pub fn open(table: &[u16], roles: u32, room: &mut [u16]) -> Verdict {
    match parts(table, roles, room.len()) {
        Err(refused) => refused,
        Ok(parts) => {
            // All parts are known before the first word is written, so no refusal comes after it.
            for (part, block) in parts.iter().zip(room.chunks_exact_mut(table.len())) {
                lay(part, block);
            }
            Verdict::ACCEPTED
        }
    }
}

/// The part of each role, or the first rule that is broken.
pub fn parts(table: &[u16], roles: u32, room: usize) -> Result<Vec<Part>, Verdict> {
    if let Some(refused) = size_fault(table, roles) {
        return Err(refused);
    }
    if room < roles as usize * table.len() {
        return Err(Verdict::refused(ROOM, 0));
    }
    if let Some(refused) = fault(table, roles) {
        return Err(refused);
    }
    let projection = Projection::new(table);
    (0..roles as u16)
        .map(|role| projection.part(role, 0).ok_or(Verdict::refused(NOPART, role as usize)))
        .collect()
}
