//! Lengths at the border: of the used part, of the slice and of the record.

use crate::help::{addition, bad, expect_records, lent, refused, ONE_ROOM};
use compare::{Addition, Tally};
use reference::cases::book::{Book, Shelf};
use reference::cases::walk::Walked;
use reference::cases::Random;
use reference::{Refusal, Summary, BOOK_CAPACITY};

/// Books of just so many bytes, of small records, of any and of the largest.
fn books_of_length(length: usize, random: &mut Random) -> [Book; 3] {
    [[1, 5], [1, 255], [255, 255]].map(|rooms| {
        let shelf = Shelf::new(40, rooms, random);
        shelf.book_of_length(length, random)
    })
}

#[test]
fn books_of_65_535_bytes_and_a_little_less() {
    let mut tally = Tally::new("books of 65,535 bytes and a little less");
    let mut random = Random::from_seed(431);
    for left in 0..=2 {
        for book in books_of_length(BOOK_CAPACITY - left, &mut random) {
            let lent = lent(&book, left + 4);
            let two_rooms = addition(&book, &lent, &[0x02, 0xa0]);
            let one_room = addition(&book, &lent, ONE_ROOM);
            match left {
                0 => tally.expect_refused_addition(one_room, Refusal::BookLength),
                _ => tally.expect_added(one_room),
            }
            match left {
                0 | 1 => tally.expect_refused_addition(two_rooms, Refusal::BookLength),
                _ => tally.expect_added(two_rooms),
            }
        }
    }
    assert_eq!(tally.accepted(), 3 * (1 + 2));
    tally.finish(3 * 3 * 2);
}

#[test]
fn reading_books_of_65_535_bytes_and_one_more() {
    let mut tally = Tally::new("reading books of 65,535 bytes and one more");
    let mut random = Random::from_seed(432);
    for book in books_of_length(BOOK_CAPACITY, &mut random) {
        expect_records(&mut tally, &book, &book.bytes);
        let longer = [&book.bytes[..], ONE_ROOM].concat();
        expect_records(&mut tally, &book, &longer);
        for place in [0, 1, BOOK_CAPACITY, BOOK_CAPACITY + 1] {
            let answer = tally.book_next(&longer, BOOK_CAPACITY + 1, place);
            assert_eq!(answer, refused(Refusal::BookLength));
        }
        let case = Addition {
            used: BOOK_CAPACITY + 1,
            ..addition(&book, &longer, ONE_ROOM)
        };
        tally.expect_refused_addition(case, Refusal::BookLength);
    }
    tally.finish(3 * 5);
}

#[test]
fn slices_of_every_length_near_the_needed_one() {
    let mut tally = Tally::new("slices one byte shorter or longer");
    let mut random = Random::from_seed(433);
    let shelf = Shelf::new(30, [1, 255], &mut random);
    for plans in 0..12 {
        let book = shelf.book(plans, &mut random);
        let record = shelf.plan(&mut random).record();
        for more in 0..=record.len() + 3 {
            let lent = lent(&book, more);
            let case = addition(&book, &lent, &record);
            if more < record.len() {
                tally.expect_refused_addition(case, Refusal::SliceShort);
            } else {
                tally.expect_added(case);
            }
        }
    }
    assert_eq!(tally.accepted(), 12 * 4);
    tally.finish(12 * 5);
}

#[test]
fn used_lengths_and_places_beyond_the_end() {
    let mut tally = Tally::new("used lengths and places beyond the end");
    let mut random = Random::from_seed(434);
    let shelf = Shelf::new(30, [1, 40], &mut random);
    let far = [1, 2, 97, 255, 65_536, 1 << 32, usize::MAX - 2_000];
    for plans in [0, 1, 5, 20] {
        let book = shelf.book(plans, &mut random);
        let used = book.bytes.len();
        let lent = lent(&book, 3);
        for beyond in far {
            let case = Addition {
                used: lent.len() + beyond,
                ..addition(&book, &lent, ONE_ROOM)
            };
            tally.expect_refused_addition(case, Refusal::PlaceOutside);
            for (used, place) in [
                (lent.len() + beyond, 0),
                (used, used + beyond),
                (lent.len(), lent.len() + beyond),
            ] {
                let answer = tally.book_next(&lent, used, place);
                assert_eq!(answer, refused(Refusal::PlaceOutside), "{used}, {place}");
            }
        }
        assert_eq!(tally.book_next(&lent, used, used), Ok(None));
    }
    tally.finish(4 * (7 * 4 + 1));
}

/// The record that is added is judged whole, however long it is.
#[test]
fn added_records_of_every_length_but_their_own() {
    let mut tally = Tally::new("added records of another length");
    let mut random = Random::from_seed(435);
    let book = Shelf::new(9, [1, 40], &mut random).book(4, &mut random);
    let lent = lent(&book, 200);
    for n in [1, 2, 5, 40, 254, 255] {
        let record = Walked::falling(n).record();
        tally.expect_added(addition(&book, &lent, &record));
        // Among these are records of 98 and of 65,535 bytes.
        for added in [1, 2, 255, 256, 65_535, 65_536, 65_535 - record.len()] {
            let longer = [&record[..], &vec![0; added]].concat();
            let case = addition(&book, &lent, &longer);
            tally.expect_refused_addition(case, Refusal::BytesAfter);
        }
        for length in 1..record.len() {
            let case = addition(&book, &lent, &record[..length]);
            tally.expect_refused_addition(case, Refusal::BodyShort);
        }
        tally.expect_refused_addition(addition(&book, &lent, &[]), Refusal::NoKind);
    }
    tally.finish(6 * 9);
}

/// A book of plans of one room has as many records as it can have bytes, and
/// its last ordinal is as large as one can be.
#[test]
fn the_largest_ordinal() {
    let mut tally = Tally::new("the largest ordinal");
    let full = vec![0x01; BOOK_CAPACITY];
    tally.expect_refused_addition(to_one_rooms(&full), Refusal::BookLength);
    for (last, refusal) in [(0x00, Refusal::NoKind), (0x02, Refusal::BodyShort)] {
        let mut book = full.clone();
        book[BOOK_CAPACITY - 1] = last;
        tally.expect_bad_record(to_one_rooms(&book), refusal, BOOK_CAPACITY);
        let answer = tally.book_next(&book, BOOK_CAPACITY, BOOK_CAPACITY - 1);
        assert_eq!(answer, bad(refusal, 1));
    }
    tally.finish(5);
}

/// A record to be added to a full book of plans of one room.
fn to_one_rooms(book: &[u8]) -> Addition<'_> {
    let plans = BOOK_CAPACITY as u64;
    Addition {
        book,
        used: BOOK_CAPACITY,
        record: ONE_ROOM,
        summary: Summary::with([plans, plans, 0, 0]),
    }
}

#[test]
fn slices_that_are_no_part_of_anything() {
    let mut summary = nenturxo::Summary::default();
    let mut add = |used, record: &[u8]| {
        let answer = nenturxo::book_add(&mut [], used, record, &mut summary);
        answer.map_err(|bad| (bad.error, bad.ordinal))
    };
    use nenturxo::Refusal;
    assert_eq!(add(0, &[0x01]), Err((Refusal::SLICE_SHORT, None)));
    assert_eq!(add(0, &[]), Err((Refusal::NO_KIND, None)));
    assert_eq!(add(1, &[]), Err((Refusal::PLACE_OUTSIDE, None)));
    assert_eq!(nenturxo::book_next(&[], 0, 0), Ok(None));
    assert_eq!(summary, nenturxo::Summary::default());
}
