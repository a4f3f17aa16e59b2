//! Full books.

use crate::case::Case;
use compare::of_library;
use reference::cases::book::Book;
use reference::cases::walk::random_list;
use reference::cases::Random;
use reference::{fast, BookRefusal, Summary, BOOK_CAPACITY};

/// A kind of full books, by how many records they have and of how many rooms.
pub struct Kind {
    pub name: &'static str,
    pub records: usize,
    rooms: [usize; 2],
}

/// The kinds: as many of the largest records as a book can hold, and small
/// records, where most of the time goes into getting from one to the next.
pub const BOOKS: [Kind; 2] = [
    Kind {
        name: "255 rooms",
        records: 675,
        rooms: [255, 255],
    },
    Kind {
        name: "1 to 5 rooms",
        records: 20_000,
        rooms: [1, 5],
    },
];

/// A book that has room for one record more, and that record.
pub struct FullBook {
    /// The bytes that are lent.
    pub lent: Vec<u8>,
    pub used: usize,
    pub summary: Summary,
    pub record: Vec<u8>,
}

impl Kind {
    /// So many random books of this kind. All versions answer them alike.
    pub fn books(&self, count: usize) -> Vec<FullBook> {
        let mut random = Random::from_seed(self.records as u64);
        (0..count).map(|_| self.book(&mut random)).collect()
    }

    fn book(&self, random: &mut Random) -> FullBook {
        let [first, last] = self.rooms;
        let mut book = Book::default();
        for _ in 0..self.records {
            book.add(&random_list(random.between(first, last), random));
        }
        let used = book.bytes.len();
        let mut lent = book.bytes;
        lent.resize(BOOK_CAPACITY, 0);
        let full = FullBook {
            lent,
            used,
            summary: book.summary,
            record: random_list(40, random).record(),
        };
        full.check();
        full
    }
}

/// A Rust version of "Book add".
type Adding = fn(&mut [u8], usize, &[u8], &mut Summary) -> Result<usize, BookRefusal>;

impl FullBook {
    /// Adds the record in a copy of the lent bytes by a Rust version, and gives
    /// the length and the totals that it leaves.
    #[inline(always)]
    pub fn add_by(&self, version: Adding, lent: &mut [u8]) -> (Option<usize>, nenturxo::Summary) {
        let mut summary = self.summary;
        let length = version(lent, self.used, &self.record, &mut summary).ok();
        (length, of_library::summary(summary))
    }

    /// As [`Self::add_by`], by the library.
    #[inline(always)]
    pub fn add_by_library(&self, lent: &mut [u8]) -> (Option<usize>, nenturxo::Summary) {
        let mut totals = of_library::summary(self.summary);
        let length = nenturxo::book_add(lent, self.used, &self.record, &mut totals).ok();
        (length, totals)
    }

    /// Stops unless all versions accept the record and leave the same.
    fn check(&self) {
        let mut library = self.lent.clone();
        let answer = self.add_by_library(&mut library);
        assert_eq!(answer.0, Some(self.used + self.record.len()));
        for version in [fast::book_add, fast::book_add_by_triples] {
            let mut rust = self.lent.clone();
            assert_eq!(self.add_by(version, &mut rust), answer);
            assert!(library == rust, "the books differ");
        }
    }
}

/// As many records of the cases as a book can hold, in their order again and
/// again, and places of records in it, as many as there are cases and in no
/// order.
pub fn book_with_places(cases: &[Case]) -> (Vec<u8>, Vec<usize>) {
    let (mut book, mut places) = (Vec::new(), Vec::new());
    for case in cases.iter().cycle() {
        if book.len() + case.record.len() > BOOK_CAPACITY {
            break;
        }
        places.push(book.len());
        book.extend(&case.record);
    }
    Random::from_seed(places.len() as u64).shuffle(&mut places);
    places.truncate(cases.len());
    for &place in &places {
        let library = nenturxo::book_next(&book, book.len(), place).ok();
        assert!(matches!(library, Some(Some(_))), "{place} is refused");
        for version in [fast::book_next, fast::book_next_by_triples] {
            let rust = version(&book, book.len(), place).ok();
            assert_eq!(library, rust, "{place} of {book:02X?}");
        }
    }
    (book, places)
}
