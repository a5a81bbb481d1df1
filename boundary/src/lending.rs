//! Memory that slices are lent from, so that a read or write outside a slice is seen: at one end of the slice lies a page that may
//! not be touched, where the call faults at once; at the other end stand words that are looked at afterwards.

use crate::pages::Pages;
use std::marker::PhantomData;
use std::mem::size_of;
use std::ops::Range;
use std::slice;

/// Where a lent slice stands.
#[derive(Clone, Copy, Debug, PartialEq, Eq)]
pub enum Keeping {
    /// It ends at a page that may not be touched.
    Before,
    /// It begins behind a page that may not be touched.
    Behind,
}

/// Words at the other end that no call may change.
const GUARDS: usize = 16;

/// A number, and the one that stands there.
pub trait Word: Copy + PartialEq {
    const GUARD: Self;
}

impl Word for u8 {
    const GUARD: u8 = 0xa5;
}

impl Word for u16 {
    const GUARD: u16 = 0xa55a;
}

impl Word for u32 {
    const GUARD: u32 = 0xa55a_c33c;
}

/// Pages that one slice after the other is lent from. They are made anew only for a slice that they cannot hold.
pub struct Lending<T> {
    pages: Pages,
    /// The slice's place among the words of the pages.
    place: Range<usize>,
    /// The place of the words at its other end.
    guards: Range<usize>,
    kind: PhantomData<T>,
}

impl<T: Word> Default for Lending<T> {
    fn default() -> Lending<T> {
        Lending { pages: Pages::holding(0), place: 0..0, guards: 0..0, kind: PhantomData }
    }
}

impl<T: Word> Lending<T> {
    /// Puts a copy of some words where they are to be lent from.
    pub fn put(&mut self, words: &[T], keeping: Keeping) {
        let all = words.len() + GUARDS;
        if all > self.words().len() {
            self.pages = Pages::holding(all * size_of::<T>());
        }
        let end = self.words().len();
        (self.place, self.guards) = match keeping {
            Keeping::Before => (end - words.len()..end, end - all..end - words.len()),
            Keeping::Behind => (0..words.len(), words.len()..all),
        };
        let (place, guards) = (self.place.clone(), self.guards.clone());
        self.words()[place].copy_from_slice(words);
        self.words()[guards].fill(T::GUARD);
    }

    pub fn lent(&mut self) -> &mut [T] {
        let place = self.place.clone();
        &mut self.words()[place]
    }

    /// The words afterwards, or the name of the slice beside which a word changed.
    pub fn back(&mut self, name: &str) -> Result<Vec<T>, String> {
        let guards = self.guards.clone();
        if self.words()[guards].iter().any(|&word| word != T::GUARD) {
            return Err(format!("a guard word beside the {name} changed"));
        }
        Ok(self.lent().to_vec())
    }

    /// All words of the pages.
    fn words(&mut self) -> &mut [T] {
        // Pages are aligned for every word, hold zeros at first, and are this lending's own; a `Word` is any bits.
        unsafe { slice::from_raw_parts_mut(self.pages.first().cast(), self.pages.bytes() / size_of::<T>()) }
    }
}
