//! "Book next" and "Book add", triple by triple and with no large table.
//!
//! The runs below the current one, those above it and the third bits that were 1
//! are three counts in one word. So a step is one addition of a row of eight. A
//! count of runs that falls below 0 sets the highest bit of its field. That it
//! also borrows from the field above makes no difference: the record is refused
//! by then, and a count that is back at 0 has given back what it borrowed.

use super::book::{add, next, End, Walk};
use crate::{BookRefusal, Summary};

/// Book next, with the answers of [`crate::book_next`].
///
/// # Errors
///
/// As there.
// Not inlined, so that a benchmark pays for a call as with a library.
#[inline(never)]
pub fn book_next_by_triples(
    book: &[u8],
    used: usize,
    place: usize,
) -> Result<Option<&[u8]>, BookRefusal> {
    next::<ByTriples>(book, used, place)
}

/// Book add, with the answers of [`crate::book_add`].
///
/// # Errors
///
/// As there.
#[inline(never)]
pub fn book_add_by_triples(
    book: &mut [u8],
    used: usize,
    record: &[u8],
    summary: &mut Summary,
) -> Result<usize, BookRefusal> {
    add::<ByTriples>(book, used, record, summary)
}

/// Where the field of the runs above begins, after that of the runs below. Each
/// has room for 254 and for the bit that tells of a count below 0.
const ABOVE: u32 = 9;

/// Where the field of the third bits begins.
const FALLS: u32 = 18;

/// What is set in the two counts of runs if one is below 0.
const BELOW_0: u32 = 1 << (FALLS - 1) | 1 << (ABOVE - 1);

/// The two counts of runs.
const RUNS: u32 = (1 << FALLS) - 1;

/// What a step adds, by its triple.
static ROWS: [u32; 8] = {
    let mut rows = [0; 8];
    let mut triple = 0;
    while triple < 8 {
        let [first, second, third] = [triple >> 2 & 1, triple >> 1 & 1, triple & 1];
        let (below, above) = (1 - second - third, third - first);
        rows[triple as usize] = (below + (above << ABOVE) + (third << FALLS)) as u32;
        triple += 1;
    }
    rows
};

/// The walk so far.
#[derive(Default)]
struct ByTriples {
    /// The three counts.
    counts: u32,
    /// What was ever set in them.
    ever: u32,
}

impl ByTriples {
    /// Four steps, whose triples are on top of a word. The compiler unrolls a
    /// loop of four, and left one of sixteen as it was.
    #[inline(always)]
    fn four(&mut self, word: u64) {
        for shift in [61, 58, 55, 52] {
            let triple = word >> shift & 7;
            self.counts = self.counts.wrapping_add(ROWS[triple as usize]);
            self.ever |= self.counts;
        }
    }

    /// Eight steps, likewise.
    #[inline(always)]
    fn eight(&mut self, word: u64) {
        self.four(word);
        self.four(word << 12);
    }
}

impl Walk for ByTriples {
    #[inline(always)]
    fn go(&mut self, word: u64) {
        self.eight(word);
        self.eight(word << 24);
    }

    #[inline(always)]
    fn go_last(&mut self, word: u64, steps: usize) {
        self.eight(word);
        if steps > 8 {
            self.eight(word << 24);
        }
    }

    #[inline(always)]
    fn end(self) -> End {
        End {
            bad: self.ever & BELOW_0 | self.counts & RUNS,
            falls: self.counts >> FALLS,
        }
    }

    #[inline(always)]
    fn end_of_four(word: u64) -> End {
        let mut walk = Self::default();
        walk.four(word);
        walk.end()
    }
}

#[cfg(test)]
mod tests {
    use crate::fast::book_checks::{self, Version};
    use crate::fast::{book_add_by_triples, book_next_by_triples};

    const VERSION: Version = Version {
        next: book_next_by_triples,
        add: book_add_by_triples,
    };

    #[test]
    fn agrees_with_the_definitions_on_every_code_of_up_to_7_rooms() {
        book_checks::every_code_of_up_to_7_rooms(VERSION);
    }

    #[test]
    fn agrees_with_the_definitions_on_every_book_of_up_to_2_bytes() {
        book_checks::every_book_of_up_to_2_bytes(VERSION);
    }

    #[test]
    fn agrees_with_the_definitions_on_records_of_every_kind_with_every_last_byte() {
        book_checks::records_of_every_kind_with_every_last_byte(VERSION);
    }

    #[test]
    fn agrees_with_the_definitions_where_the_runs_are_most() {
        book_checks::where_the_runs_are_most(VERSION);
    }

    #[test]
    fn agrees_with_the_definitions_on_random_books() {
        book_checks::random_books(VERSION);
    }

    #[test]
    fn agrees_with_the_definitions_on_full_books_and_bad_records_in_them() {
        book_checks::full_books_and_bad_records_in_them(VERSION);
    }
}
