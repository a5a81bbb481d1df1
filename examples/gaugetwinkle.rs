//! The C boundary declared in Rust, with a safe function over each call. The calls are total, so no function here tests anything.
//! What `include/gaugetwinkle.h` asks of pointers holds of references: they lead to their elements, and nothing else leads to what a `&mut` leads to.

/// A state. The queue from p to q has the number p × 8 + q, and its slots stand from 4 times that on, the oldest message first.
#[derive(Clone, Debug, PartialEq, Eq)]
pub struct Session {
    pub heads: [u16; 8],
    pub counts: [u8; 64],
    pub labels: [u8; 256],
    pub payloads: [u32; 256],
}

impl Session {
    pub const ZERO: Session = Session { heads: [0; 8], counts: [0; 64], labels: [0; 256], payloads: [0; 256] };
}

/// The awaited roles: role r is the bit 1 << r of the set.
#[derive(Clone, Copy, Debug, PartialEq, Eq)]
pub struct Awaited {
    pub number: u8,
    pub set: u8,
    pub count: u32,
    pub lowest: u32,
}

#[link(name = "embed", kind = "static")]
extern "C" {
    fn gaugetwinkle_open(table: *const u16, words: usize, roles: usize, room: *mut u16, room_words: usize, place: *mut usize) -> u8;
    fn gaugetwinkle_fresh(
        tables: *const u16, words: usize, roles: usize,
        heads: *mut u16, heads_count: usize, counts: *mut u8, counts_count: usize,
        labels: *mut u8, labels_count: usize, payloads: *mut u32, payloads_count: usize,
    ) -> u8;
    fn gaugetwinkle_send(
        tables: *const u16, words: usize, roles: usize, sender: usize, receiver: usize, label: usize, payload: u32, offered: *mut u16,
        heads: *mut u16, heads_count: usize, counts: *mut u8, counts_count: usize,
        labels: *mut u8, labels_count: usize, payloads: *mut u32, payloads_count: usize,
    ) -> u8;
    fn gaugetwinkle_receive(
        tables: *const u16, words: usize, roles: usize, sender: usize, receiver: usize, label: *mut u8, payload: *mut u32, offered: *mut u16,
        heads: *mut u16, heads_count: usize, counts: *mut u8, counts_count: usize,
        labels: *mut u8, labels_count: usize, payloads: *mut u32, payloads_count: usize,
    ) -> u8;
    fn gaugetwinkle_awaited(
        tables: *const u16, words: usize, roles: usize, set: *mut u8, count: *mut u32, lowest: *mut u32,
        heads: *const u16, heads_count: usize, counts: *const u8, counts_count: usize,
        labels: *const u8, labels_count: usize, payloads: *const u32, payloads_count: usize,
    ) -> u8;
}

/// A state of any lengths, for whoever tests the boundary. Where one slice has another length than a session's, they are no state: each
/// call then leaves all four as they are and gives 13, or 12 if the tables are not well formed either.
pub struct Lent<'a> {
    pub heads: &'a mut [u16],
    pub counts: &'a mut [u8],
    pub labels: &'a mut [u8],
    pub payloads: &'a mut [u32],
}

impl Session {
    pub fn lend(&mut self) -> Lent<'_> {
        Lent { heads: &mut self.heads, counts: &mut self.counts, labels: &mut self.labels, payloads: &mut self.payloads }
    }
}

/// The number and the place: the row (4 to 10) or the role (11) that the number is about, else 0. Refused, the room stays as it is.
pub fn open(table: &[u16], roles: usize, room: &mut [u16]) -> (u8, usize) {
    let mut place = 0;
    let number = unsafe { gaugetwinkle_open(table.as_ptr(), table.len(), roles, room.as_mut_ptr(), room.len(), &mut place) };
    (number, place)
}

/// A fresh state, whatever stood there before; refused with 12 it is all zeros.
pub fn fresh(tables: &[u16], roles: usize, session: &mut Session) -> u8 {
    fresh_lent(tables, roles, session.lend())
}

/// A fresh state in slices of any lengths. Slices of other lengths stay as they are, with 12 too; only they are refused with 13.
pub fn fresh_lent(tables: &[u16], roles: usize, s: Lent) -> u8 {
    unsafe {
        gaugetwinkle_fresh(
            tables.as_ptr(), tables.len(), roles,
            s.heads.as_mut_ptr(), s.heads.len(), s.counts.as_mut_ptr(), s.counts.len(),
            s.labels.as_mut_ptr(), s.labels.len(), s.payloads.as_mut_ptr(), s.payloads.len(),
        )
    }
}

/// The number, and what is offered: refused with 16 the lowest label that would be taken, else 64. Refused, the state stays as it is.
pub fn send(tables: &[u16], roles: usize, sender: usize, receiver: usize, label: usize, payload: u32, session: &mut Session) -> (u8, u16) {
    send_lent(tables, roles, sender, receiver, label, payload, session.lend())
}

pub fn send_lent(tables: &[u16], roles: usize, sender: usize, receiver: usize, label: usize, payload: u32, s: Lent) -> (u8, u16) {
    let mut offered = 0;
    let number = unsafe {
        gaugetwinkle_send(
            tables.as_ptr(), tables.len(), roles, sender, receiver, label, payload, &mut offered,
            s.heads.as_mut_ptr(), s.heads.len(), s.counts.as_mut_ptr(), s.counts.len(),
            s.labels.as_mut_ptr(), s.labels.len(), s.payloads.as_mut_ptr(), s.payloads.len(),
        )
    };
    (number, offered)
}

/// The number, the label, the payload, and what is offered: refused with 19 the lowest label that would be taken, else 64. Refused, label and
/// payload are 0 and the state stays as it is.
pub fn receive(tables: &[u16], roles: usize, sender: usize, receiver: usize, session: &mut Session) -> (u8, u8, u32, u16) {
    receive_lent(tables, roles, sender, receiver, session.lend())
}

pub fn receive_lent(tables: &[u16], roles: usize, sender: usize, receiver: usize, s: Lent) -> (u8, u8, u32, u16) {
    let (mut label, mut payload, mut offered) = (0, 0, 0);
    let number = unsafe {
        gaugetwinkle_receive(
            tables.as_ptr(), tables.len(), roles, sender, receiver, &mut label, &mut payload, &mut offered,
            s.heads.as_mut_ptr(), s.heads.len(), s.counts.as_mut_ptr(), s.counts.len(),
            s.labels.as_mut_ptr(), s.labels.len(), s.payloads.as_mut_ptr(), s.payloads.len(),
        )
    };
    (number, label, payload, offered)
}

/// The number and the awaited roles; refused, they are 0, 0 and 8.
pub fn awaited(tables: &[u16], roles: usize, s: &Session) -> Awaited {
    awaited_lent(tables, roles, &s.heads, &s.counts, &s.labels, &s.payloads)
}

pub fn awaited_lent(tables: &[u16], roles: usize, heads: &[u16], counts: &[u8], labels: &[u8], payloads: &[u32]) -> Awaited {
    let (mut set, mut count, mut lowest) = (0, 0, 0);
    let number = unsafe {
        gaugetwinkle_awaited(
            tables.as_ptr(), tables.len(), roles, &mut set, &mut count, &mut lowest,
            heads.as_ptr(), heads.len(), counts.as_ptr(), counts.len(),
            labels.as_ptr(), labels.len(), payloads.as_ptr(), payloads.len(),
        )
    };
    Awaited { number, set, count, lowest }
}
