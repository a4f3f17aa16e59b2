//! The records of a book, one after another.

use super::forms;
use super::walk::{falls, Walk, WINDOW};
use crate::Summary;

/// What is counted in a book. Its rises are not, since all other third bits are
/// falls.
#[derive(Clone, Copy, Default)]
pub(super) struct Count {
    pub(super) plans: u32,
    rooms: u32,
    falls: u32,
}

impl Count {
    /// One more record, with so many rooms and falls.
    #[inline(always)]
    pub(super) fn add(&mut self, rooms: u32, falls: u32) {
        self.plans += 1;
        self.rooms += rooms;
        self.falls += falls;
    }

    pub(super) fn summary(self) -> Summary {
        Summary {
            plans: self.plans,
            rooms: self.rooms,
            rises: self.rooms - self.plans - self.falls,
            falls: self.falls,
        }
    }
}

/// The records up to a place of a book.
#[derive(Default)]
pub(super) struct Counted {
    pub(super) count: Count,
    pub(super) place: usize,
}

impl Counted {
    /// Whether a walk from here would need bytes behind the end of a book.
    pub(super) fn near_the_end(&self, book: &[u8]) -> bool {
        self.place + WINDOW > book.len()
    }

    /// Goes on as far as records are accepted, but not to a place near the end.
    #[inline(always)]
    pub(super) fn go_on<W: Walk>(&mut self, book: &[u8], used: usize) {
        let (mut count, mut place) = (self.count, self.place);
        while place < used {
            let Some(window) = book[place..].first_chunk::<WINDOW>() else {
                break;
            };
            let kind = window[0];
            let next = place + forms::length(kind);
            let Some(falls) = falls::<W>(kind, window) else {
                break;
            };
            if next > used {
                break;
            }
            count.add(kind.into(), falls);
            place = next;
        }
        (self.count, self.place) = (count, place);
    }
}
