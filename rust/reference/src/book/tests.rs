//! The calls on books that are small enough to be judged by eye.

use super::{book_add, book_next, BookRefusal, Summary, BOOK_CAPACITY};
use crate::cases::worked::REFUSED_RECORDS;
use crate::Refusal;

/// A book of three records: one room, two side by side, and the sheet's
/// pinwheel, whose third bits are 1 0 0 1.
const BOOK: [u8; 6] = [0x01, 0x02, 0x40, 0x05, 0x31, 0x70];

/// Its totals.
const SUMMARY: Summary = Summary {
    plans: 3,
    rooms: 8,
    rises: 3,
    falls: 2,
};

fn refused<A>(refusal: Refusal) -> Result<A, BookRefusal> {
    Err(refusal.into())
}

fn bad<A>(refusal: Refusal, ordinal: usize) -> Result<A, BookRefusal> {
    Err(BookRefusal::of_record(refusal, ordinal))
}

/// What adding answers, once nothing is written where that is a refusal.
fn added(
    book: &[u8],
    used: usize,
    record: &[u8],
    summary: Summary,
) -> Result<(usize, Vec<u8>, Summary), BookRefusal> {
    let (mut after, mut totals) = (book.to_vec(), summary);
    match book_add(&mut after, used, record, &mut totals) {
        Ok(length) => Ok((length, after, totals)),
        Err(refusal) => {
            assert_eq!((&after[..], totals), (book, summary), "{refusal}");
            Err(refusal)
        }
    }
}

#[test]
fn reading_on_gives_the_records_and_then_the_end() {
    let longer = [&BOOK[..], &[0; 3]].concat();
    let (mut place, mut records) = (0, Vec::new());
    while let Ok(Some(record)) = book_next(&longer, 6, place) {
        records.push(record);
        place += record.len();
    }
    let expected: [&[u8]; 3] = [&[0x01], &[0x02, 0x40], &[0x05, 0x31, 0x70]];
    assert_eq!(records, expected);
    assert_eq!(book_next(&longer, 6, 6), Ok(None));
    // What stands behind the used part is no record.
    assert_eq!(book_next(&longer, 9, 6), bad(Refusal::NoKind, 1));
}

#[test]
fn adding_goes_on_from_an_empty_book() {
    let (mut book, mut used, mut summary) = ([0xa5; 8], 0, Summary::default());
    for record in [&BOOK[..1], &BOOK[1..3], &BOOK[3..]] {
        let length = book_add(&mut book, used, record, &mut summary);
        assert_eq!(length, Ok(used + record.len()));
        used += record.len();
    }
    assert_eq!(book, [0x01, 0x02, 0x40, 0x05, 0x31, 0x70, 0xa5, 0xa5]);
    assert_eq!(summary, SUMMARY);
}

#[test]
fn a_place_may_be_inside_a_record() {
    // Of the pinwheel's bytes 31 70, 31 is a kind with a longer body.
    assert_eq!(book_next(&BOOK, 6, 4), bad(Refusal::BodyShort, 1));
    assert_eq!(book_next(&[0x02, 0x01], 2, 1), Ok(Some(&[0x01][..])));
}

#[test]
fn bad_records_are_named_by_their_ordinals() {
    for (record, refusal) in REFUSED_RECORDS {
        // In a book the bytes after a body are the next record, here one of
        // kind 0.
        let (refusal, more) = match refusal {
            Refusal::BytesAfter => (Refusal::NoKind, 1),
            _ => (refusal, 0),
        };
        let book = [&BOOK[..], record].concat();
        let answer = added(&book, book.len(), &[0x01], SUMMARY);
        assert_eq!(answer, bad(refusal, 4 + more), "{record:02x?}");
        let next = book_next(&book, book.len(), 6 + more);
        assert_eq!(next, bad(refusal, 1), "{record:02x?}");
    }
}

#[test]
fn each_total_counts() {
    for which in 0..4 {
        for by in [1, 1 << 16, 1 << 31, u64::from(u32::MAX)] {
            let mut totals = SUMMARY.totals();
            totals[which] = (totals[which] + by) % (1 << 32);
            let answer = added(&BOOK, 6, &[0x00], Summary::with(totals));
            assert_eq!(answer, refused(Refusal::SummaryDiffers), "{totals:?}");
        }
    }
}

#[test]
fn the_added_record_is_judged_whole_and_has_no_ordinal() {
    for (record, refusal) in REFUSED_RECORDS {
        let answer = added(&BOOK, 6, record, SUMMARY);
        assert_eq!(answer, refused(refusal), "{record:02x?}");
    }
    assert_eq!(added(&BOOK, 6, &[], SUMMARY), refused(Refusal::NoKind));
    let answer = added(&BOOK, 6, &[0x02, 0xa0], SUMMARY);
    assert_eq!(answer, refused(Refusal::SliceShort));
}

#[test]
fn a_book_has_at_most_65_535_bytes() {
    let mut rooms = vec![0x01; BOOK_CAPACITY + 1];
    let full = BOOK_CAPACITY as u32;
    let summary = |plans| Summary {
        plans,
        rooms: plans,
        ..Summary::default()
    };
    let answer = added(&rooms, BOOK_CAPACITY, &[0x01], summary(full));
    assert_eq!(answer, refused(Refusal::BookLength));
    let answer = added(&rooms, BOOK_CAPACITY + 1, &[0x00], summary(0));
    assert_eq!(answer, refused(Refusal::BookLength));
    let answer = added(&rooms, BOOK_CAPACITY + 2, &[0x00], summary(0));
    assert_eq!(answer, refused(Refusal::PlaceOutside));
    let answer = added(&rooms, BOOK_CAPACITY - 1, &[0x01], summary(full - 1));
    assert_eq!(answer, Ok((BOOK_CAPACITY, rooms.clone(), summary(full))));
    // 21 for the lengthened book comes before 15.
    rooms.truncate(BOOK_CAPACITY);
    let answer = added(&rooms, BOOK_CAPACITY, &[0x01], summary(full));
    assert_eq!(answer, refused(Refusal::BookLength));

    let last = |used, place| book_next(&rooms, used, place);
    assert_eq!(last(BOOK_CAPACITY, BOOK_CAPACITY), Ok(None));
    assert_eq!(
        last(BOOK_CAPACITY, BOOK_CAPACITY - 1),
        Ok(Some(&[0x01][..]))
    );
    let outside = refused(Refusal::PlaceOutside);
    assert_eq!(last(BOOK_CAPACITY, BOOK_CAPACITY + 1), outside);
    assert_eq!(last(BOOK_CAPACITY + 1, 0), outside);
    let longer = vec![0x01; BOOK_CAPACITY + 1];
    let long = refused(Refusal::BookLength);
    assert_eq!(book_next(&longer, BOOK_CAPACITY + 1, 0), long);
    assert_eq!(
        book_next(&longer, BOOK_CAPACITY + 1, BOOK_CAPACITY + 1),
        long
    );
}

#[test]
fn refusals_say_which_record_it_is() {
    let bad = BookRefusal::of_record(Refusal::SpareBit, 3);
    assert_eq!(bad.to_string(), "record 3 of the book: spare bit is 1");
    let refusal = BookRefusal::from(Refusal::SummaryDiffers);
    assert_eq!(refusal.to_string(), "summary is not the book's");
}
