//! The C boundary's own symbols, called as a caller in C may: an empty slice is NULL, and what a call answers through a
//! pointer is written over what stood there. The declarations in `examples/` put 0 there first, which would hide a
//! call that does not write.

use crate::gaugetwinkle::{Awaited, Lent};
use std::ptr;

extern "C" {
    fn gaugetwinkle_open(
        table: *const u16, words: usize, roles: usize, room: *mut u16, room_words: usize, place: *mut usize,
    ) -> u8;
    fn gaugetwinkle_fresh(
        tables: *const u16, words: usize, roles: usize,
        heads: *mut u16, heads_count: usize, counts: *mut u8, counts_count: usize,
        labels: *mut u8, labels_count: usize, payloads: *mut u32, payloads_count: usize,
    ) -> u8;
    fn gaugetwinkle_send(
        tables: *const u16, words: usize, roles: usize, sender: usize, receiver: usize, label: usize, payload: u32, offered: *mut u16,
        heads: *mut u16, heads_count: usize, counts: *mut u8, counts_count: usize,
        labels: *mut u8, labels_count: usize, payloads: *mut u32, payloads_count: usize,
    ) -> u8;
    fn gaugetwinkle_receive(
        tables: *const u16, words: usize, roles: usize, sender: usize, receiver: usize, label: *mut u8, payload: *mut u32,
        offered: *mut u16,
        heads: *mut u16, heads_count: usize, counts: *mut u8, counts_count: usize,
        labels: *mut u8, labels_count: usize, payloads: *mut u32, payloads_count: usize,
    ) -> u8;
    fn gaugetwinkle_awaited(
        tables: *const u16, words: usize, roles: usize, set: *mut u8, count: *mut u32, lowest: *mut u32,
        heads: *const u16, heads_count: usize, counts: *const u8, counts_count: usize,
        labels: *const u8, labels_count: usize, payloads: *const u32, payloads_count: usize,
    ) -> u8;
}

/// What stands behind an answer's pointer before the call.
const BEFORE: u8 = 0xd7;

fn start<T>(words: &[T]) -> *const T {
    if words.is_empty() { ptr::null() } else { words.as_ptr() }
}

fn start_mut<T>(words: &mut [T]) -> *mut T {
    if words.is_empty() { ptr::null_mut() } else { words.as_mut_ptr() }
}

pub fn open(table: &[u16], roles: usize, room: &mut [u16]) -> (u8, usize) {
    let mut place = usize::from(BEFORE);
    let number = unsafe {
        gaugetwinkle_open(start(table), table.len(), roles, start_mut(room), room.len(), &mut place)
    };
    (number, place)
}

pub fn fresh(tables: &[u16], roles: usize, s: Lent) -> u8 {
    unsafe {
        gaugetwinkle_fresh(
            start(tables), tables.len(), roles,
            start_mut(s.heads), s.heads.len(), start_mut(s.counts), s.counts.len(),
            start_mut(s.labels), s.labels.len(), start_mut(s.payloads), s.payloads.len(),
        )
    }
}

pub fn send(
    tables: &[u16], roles: usize, sender: usize, receiver: usize, label: usize, payload: u32, s: Lent,
) -> (u8, u16) {
    let mut offered = u16::from(BEFORE);
    let number = unsafe {
        gaugetwinkle_send(
            start(tables), tables.len(), roles, sender, receiver, label, payload, &mut offered,
            start_mut(s.heads), s.heads.len(), start_mut(s.counts), s.counts.len(),
            start_mut(s.labels), s.labels.len(), start_mut(s.payloads), s.payloads.len(),
        )
    };
    (number, offered)
}

pub fn receive(tables: &[u16], roles: usize, sender: usize, receiver: usize, s: Lent) -> (u8, u8, u32, u16) {
    let (mut label, mut payload, mut offered) = (BEFORE, u32::from(BEFORE), u16::from(BEFORE));
    let number = unsafe {
        gaugetwinkle_receive(
            start(tables), tables.len(), roles, sender, receiver, &mut label, &mut payload, &mut offered,
            start_mut(s.heads), s.heads.len(), start_mut(s.counts), s.counts.len(),
            start_mut(s.labels), s.labels.len(), start_mut(s.payloads), s.payloads.len(),
        )
    };
    (number, label, payload, offered)
}

pub fn awaited(
    tables: &[u16], roles: usize, heads: &[u16], counts: &[u8], labels: &[u8], payloads: &[u32],
) -> Awaited {
    let (mut set, mut count, mut lowest) = (BEFORE, u32::from(BEFORE), u32::from(BEFORE));
    let number = unsafe {
        gaugetwinkle_awaited(
            start(tables), tables.len(), roles, &mut set, &mut count, &mut lowest,
            start(heads), heads.len(), start(counts), counts.len(),
            start(labels), labels.len(), start(payloads), payloads.len(),
        )
    };
    Awaited { number, set, count, lowest }
}
