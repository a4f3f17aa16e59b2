//! What holds a version of "Book next" and "Book add" to the definitions.

use crate::cases::book::{Book, Shelf, BAD_RECORDS};
use crate::cases::walk::{halves, some_count, Walked};
use crate::cases::{every_code, every_list, Random};
use crate::{book_add, book_next, record_of, summary_of, BookRefusal, Refusal, Summary};

/// A version of "Book next".
type Next = fn(&[u8], usize, usize) -> Result<Option<&[u8]>, BookRefusal>;

/// A version of "Book add".
type Add = fn(&mut [u8], usize, &[u8], &mut Summary) -> Result<usize, BookRefusal>;

/// A version of the two calls.
#[derive(Clone, Copy)]
pub(super) struct Version {
    pub(super) next: Next,
    pub(super) add: Add,
}

impl Version {
    /// Compares the answers at a place of a book, with nothing behind its used
    /// part and with bytes that must not count.
    fn compare_next(self, part: &[u8], place: usize) -> Result<Option<&[u8]>, BookRefusal> {
        let expected = book_next(part, part.len(), place);
        let lent = [part, &[0xff; 200]].concat();
        for book in [part, &lent[..part.len() + 3], &lent] {
            let found = (self.next)(book, part.len(), place);
            assert_eq!(found, expected, "{place} of {part:02x?}");
        }
        expected
    }

    /// Compares what adding answers and leaves.
    fn compare_add(
        self,
        book: &[u8],
        used: usize,
        record: &[u8],
        summary: Summary,
    ) -> Result<usize, BookRefusal> {
        let (mut expected, mut found) = ((book.to_vec(), summary), (book.to_vec(), summary));
        let answers = (
            book_add(&mut expected.0, used, record, &mut expected.1),
            (self.add)(&mut found.0, used, record, &mut found.1),
        );
        assert_eq!(
            answers.0, answers.1,
            "{record:02x?} to {used} of {book:02x?}"
        );
        assert_eq!(expected, found, "{record:02x?} to {used} of {book:02x?}");
        answers.0
    }
}

pub(super) fn every_code_of_up_to_7_rooms(version: Version) {
    let mut accepted = 0;
    for n in 1..=7 {
        for code in every_code(n) {
            accepted += usize::from(version.compare_next(&record_of(n, &code), 0).is_ok());
        }
    }
    assert_eq!(accepted, 1 + 2 + 6 + 22 + 92 + 422 + 2_074);
}

pub(super) fn every_book_of_up_to_2_bytes(version: Version) {
    let mut added = 0;
    for length in 0..=2 {
        for book in every_list(255, length) {
            for place in 0..=book.len() + 1 {
                let _ = version.compare_next(&book, place);
            }
            let summary = summary_of(&book).unwrap_or_default();
            let lent = [&book[..], &[0x05; 2]].concat();
            let answer = version.compare_add(&lent, book.len(), &[0x02, 0xa0], summary);
            added += usize::from(answer.is_ok());
        }
    }
    // No record, one of 1 to 3 rooms, or two of one room.
    assert_eq!(added, 1 + 1 + 2 + 6 + 1);
}

pub(super) fn records_of_every_kind_with_every_last_byte(version: Version) {
    let mut random = Random::from_seed(181);
    let one = Book::of([&Walked::rising(1)]);
    for n in 1..=255usize {
        let record = Shelf::new(1, [n, n], &mut random)
            .book(1, &mut random)
            .bytes;
        for last in 0..=255 {
            let mut bytes = record.clone();
            *bytes.last_mut().expect("a kind byte") = last;
            let _ = version.compare_next(&bytes, 0);
            let _ = version.compare_add(&[0x01; 100], 1, &bytes, one.summary);
        }
        for length in 0..record.len() {
            let _ = version.compare_next(&record[..length], 0);
            let _ = version.compare_add(&[0x01; 100], 1, &record[..length], one.summary);
        }
    }
}

pub(super) fn where_the_runs_are_most(version: Version) {
    for first in 0..8 {
        for then in 0..8 {
            let _ = version.compare_next(&record_of(255, &halves(first, then)), 0);
        }
    }
}

pub(super) fn random_books(version: Version) {
    let mut random = Random::from_seed(182);
    let mut refused = [0; Refusal::ALL.len() + 1];
    for _ in 0..1_500 {
        let last = some_count(&mut random);
        let shelf = Shelf::new(8, [1, last], &mut random);
        let book = shelf.book(random.below(30), &mut random);
        let record = shelf.plan(&mut random).record();
        let used = book.bytes.len();
        for more in [0, record.len() - 1, record.len(), 200] {
            let lent = [&book.bytes[..], &vec![0xa5; more]].concat();
            let _ = version.compare_add(&lent, used, &record, book.summary);
            let _ = version.compare_add(&lent, used, &[&record[..], &[0]].concat(), book.summary);
            let _ = version.compare_add(&lent, used, &record, Summary::default());
            let mut bytes = lent.clone();
            if used > 0 {
                bytes[random.below(used)] ^= 1 << random.below(8);
                let place = random.between(0, used);
                let _ = version.compare_next(&bytes[..used], place);
            }
            if let Err(bad) = version.compare_add(&bytes, used, &record, book.summary) {
                refused[usize::from(bad.refusal.number())] += 1;
            }
        }
    }
    for number in [9, 10, 12, 13, 14, 15] {
        assert!(refused[number] > 10, "{number}: {refused:?}");
    }
}

pub(super) fn full_books_and_bad_records_in_them(version: Version) {
    let mut random = Random::from_seed(183);
    for rooms in [[1, 5], [1, 255], [255, 255]] {
        let shelf = Shelf::new(30, rooms, &mut random);
        for length in [65_534, 65_535] {
            let book = shelf.book_of_length(length, &mut random);
            let mut lent = [&book.bytes[..], &[0xa5; 2]].concat();
            for record in [&[0x01][..], &[0x02, 0xa0]] {
                for used in [length, 65_536] {
                    let _ = version.compare_add(&lent, used, record, book.summary);
                    let _ = version.compare_add(&lent[..length], used, record, book.summary);
                }
            }
            let plans = book.places.len();
            for (bad, refusal) in BAD_RECORDS {
                let index = match refusal {
                    Refusal::BodyShort => plans - 1,
                    _ => random.below(plans),
                };
                lent = book.with_instead(index, bad);
                lent.truncate(65_535);
                let answer = version.compare_add(&lent, lent.len(), &[0x01], book.summary);
                assert!(answer.is_err_and(|bad| bad.ordinal == Some(index + 1)));
            }
        }
    }
}
