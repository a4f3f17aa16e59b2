//! A plan that is being built.
//!
//! All that has to be known of it are its counts, four numbers of 16 bits in one.
//! From the low end these are its entry, which is 256 × rooms + runs; p, the runs
//! below the current one; q, those above it; and 129 × (rooms − 1).
//!
//! A move adds something to all four at once. It is refused exactly if that sets
//! the highest bit of one of the last three. Of p and q, which are at most 254, a
//! number below 0 has it, and so has one above 0 once a claim adds 32,767 to it.
//! With 129 the last number has it where there is no room, and where there are
//! 256, with 32,895; but not where there are 255, with 32,766.
//!
//! There is no branch that depends on a single move: in many traces no processor
//! can guess the next one.

use super::word::{Code, Made, Word};
use std::hint::select_unpredictable;

/// The counts of one room.
const START: u64 = 0x0101;

/// The highest bits of the last three counts.
const REFUSED: u64 = 0x8000_8000_8000_0000;

/// By the code of a move, what it adds.
static ADDED: [u64; 256] = {
    let mut added = [0; 256];
    let mut code = 0;
    while code < 256 {
        added[code] = match code & 7 {
            1 => by_a_room(code >> 3),
            2 => (-129i64 << 48) as u64,
            3 => 0x7fff_7fff_0000,
            // no kind of move
            _ => REFUSED,
        };
        code += 1;
    }
    added
};

/// What a room with the triple of this number adds.
const fn by_a_room(triple: usize) -> u64 {
    let bits = triple as i64;
    let [first, second, third] = [bits >> 2 & 1, bits >> 1 & 1, bits & 1];
    let (p, q) = (1 - second - third, third - first);
    ((256 + p + q) + (p << 16) + (q << 32) + (129 << 48)) as u64
}

/// By the code of a move, how many rooms it adds. Numbers wrap round: 255 is one
/// room less.
static ROOMS: [u8; 256] = {
    let mut rooms = [0; 256];
    let mut code = 0;
    while code < 256 {
        rooms[code] = match code & 7 {
            1 => 1,
            2 => 255,
            _ => 0,
        };
        code += 1;
    }
    rooms
};

/// By the number of rooms, the counts that the plan had when it last had so many.
/// Above the rooms that it has now there is anything. A store is enough for as
/// many rooms as it has places, less two.
pub(super) type Store<const PLACES: usize> = [u64; PLACES];

/// A plan. Its store is elsewhere, so that all of this is kept in registers.
pub(super) struct Plan<'a, const PLACES: usize> {
    store: &'a mut Store<PLACES>,
    rooms: u8,
    counts: u64,
    /// What was ever set in the counts, or would have been by a refused move.
    ever: u64,
}

impl<'a, const PLACES: usize> Plan<'a, PLACES> {
    /// One room. The store need not be cleared.
    #[inline(always)]
    pub(super) fn start(store: &'a mut Store<PLACES>) -> Self {
        store[1] = START;
        Self {
            store,
            rooms: 1,
            counts: START,
            ever: 0,
        }
    }

    /// 256 × rooms + runs.
    #[inline(always)]
    pub(super) fn entry(&self) -> u16 {
        self.counts as u16
    }

    /// Whether a move so far was refused. After one the plan is any.
    #[inline(always)]
    pub(super) fn was_refused(&self) -> bool {
        self.ever & REFUSED != 0
    }

    /// Makes the first four moves of a word, or eight, and puts the entry after
    /// each of them to the front of the entries. There are many traces in which
    /// word after word has four adds, or nothing but moves without a body.
    #[inline(always)]
    pub(super) fn make_some(&mut self, word: Word, entries: &mut [u16; 8]) -> Made {
        if word.is_four_adds() {
            for (at, entry) in entries.iter_mut().take(4).enumerate() {
                self.add(word.code_after(2 * at));
                *entry = self.entry();
            }
            return Made { moves: 4, bytes: 8 };
        }
        if word.is_eight_moves() {
            for (at, entry) in entries.iter_mut().enumerate() {
                self.go_back(word.code_after(at));
                *entry = self.entry();
            }
            return Made { moves: 8, bytes: 8 };
        }
        let (four, bytes) = word.four();
        for (code, entry) in four.into_iter().zip(entries) {
            self.make(code);
            *entry = self.entry();
        }
        Made { moves: 4, bytes }
    }

    /// Makes any move.
    #[inline(always)]
    pub(super) fn make(&mut self, code: Code) {
        let next = self.counts.wrapping_add(ADDED[usize::from(code)]);
        self.ever |= next;
        let above = self.above();
        self.rooms = self.rooms.wrapping_add(ROOMS[usize::from(code)]);
        // Read before the store changes: what has just been written takes long
        // to read.
        let kept = self.kept();
        // Never read unless a room is added.
        self.store[above] = next;
        let adds = code & 2 == 0;
        self.counts = select_unpredictable(adds, next, kept);
    }

    /// Adds a room.
    #[inline(always)]
    fn add(&mut self, code: Code) {
        self.counts = self.counts.wrapping_add(ADDED[usize::from(code)]);
        self.ever |= self.counts;
        self.store[self.above()] = self.counts;
        self.rooms = self.rooms.wrapping_add(1);
    }

    /// Takes a room away or makes a claim.
    #[inline(always)]
    fn go_back(&mut self, code: Code) {
        self.ever |= self.counts.wrapping_add(ADDED[usize::from(code)]);
        self.rooms = self.rooms.wrapping_add(ROOMS[usize::from(code)]);
        self.counts = self.kept();
    }

    /// The place of the counts with one room more.
    #[inline(always)]
    fn above(&self) -> usize {
        usize::from(self.rooms) % (PLACES - 1) + 1
    }

    /// The counts that the plan had when it last had so many rooms.
    #[inline(always)]
    fn kept(&self) -> u64 {
        self.store[usize::from(self.rooms) % (PLACES - 1)]
    }
}
