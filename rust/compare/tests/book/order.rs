//! Two causes at once: each refusal comes before those that are named after it.

use crate::help::{bad, refused};
use compare::{Addition, Tally};
use reference::cases::book::BAD_RECORDS;
use reference::cases::worked::REFUSED_RECORDS;
use reference::{summary_of, BookRefusal, Refusal, Summary, BOOK_CAPACITY};

/// As many records of one room as a book can have bytes, and a few more.
static LONG: [u8; BOOK_CAPACITY + 5] = [0x01; BOOK_CAPACITY + 5];

/// A summary that no book has: more rooms than bits.
const OTHER: Summary = Summary {
    plans: 1,
    rooms: 0,
    rises: 5,
    falls: 0,
};

/// The summary of so many plans of one room.
fn rooms(plans: usize) -> Summary {
    Summary::with([plans as u64, plans as u64, 0, 0])
}

/// Compares additions with the answers that they must get.
fn expect_all(name: &'static str, cases: &[(Addition<'_>, BookRefusal)]) {
    let mut tally = Tally::new(name);
    for (case, expected) in cases {
        assert_eq!(tally.book_add(*case), Err(*expected), "{case}");
    }
    tally.finish(cases.len());
}

fn case<'a>(book: &'a [u8], used: usize, record: &'a [u8], summary: Summary) -> Addition<'a> {
    Addition {
        book,
        used,
        record,
        summary,
    }
}

#[test]
fn used_beyond_the_slice_comes_first() {
    let outside = BookRefusal::from(Refusal::PlaceOutside);
    let none = Summary::default();
    let (full, longer) = (BOOK_CAPACITY, BOOK_CAPACITY + 1);
    expect_all(
        "22 and another cause",
        &[
            (case(&LONG[..full], longer, &[0x01], none), outside), // 21
            (case(&[], longer, &[0x01], none), outside),
            (case(&[], usize::MAX, &[0x01], none), outside),
            (case(&LONG[..1], usize::MAX, &[0x01], none), outside),
            (case(&[0x00], 2, &[0x01], none), outside), // 9 in the book
            (case(&[0x02], 2, &[0x01], none), outside), // 10 there
            (case(&[0x02, 0x60], 3, &[0x01], none), outside), // 12 there
            (case(&[0x01], 2, &[0x01], OTHER), outside), // 23
            (case(&[0x01], 2, &[], rooms(1)), outside), // 9 of the record
            (case(&[0x01], 2, &[0x01], rooms(1)), outside), // 15
            (case(&[], 1, &[0x01], none), outside),
        ],
    );
}

#[test]
fn a_book_that_is_too_long_comes_before_what_is_in_it() {
    let long = BookRefusal::from(Refusal::BookLength);
    let mut bad_first = LONG;
    bad_first[0] = 0x00;
    let longer = BOOK_CAPACITY + 1;
    expect_all(
        "21 and another cause",
        &[
            (case(&bad_first, longer, &[0x01], rooms(longer)), long),
            (case(&LONG, longer, &[0x01], OTHER), long),
            (case(&LONG, longer, &[], rooms(longer)), long),
            (case(&LONG, longer, &[0x02, 0x60], rooms(longer)), long),
            (case(&LONG, longer, &[0x01], rooms(longer)), long),
            (case(&LONG, LONG.len(), &[0x01], rooms(longer)), long),
        ],
    );
}

#[test]
fn a_bad_record_comes_before_the_summary_and_the_added_record() {
    let mut tally = Tally::new("a bad record and another cause");
    for (bytes, refusal) in BAD_RECORDS {
        let book = [&[0x02, 0x40], bytes].concat();
        let used = book.len();
        let expected = bad(refusal, 2);
        for summary in [OTHER, rooms(2), Summary::default()] {
            for (record, _) in REFUSED_RECORDS {
                let case = case(&book, used, record, summary);
                assert_eq!(tally.book_add(case), expected, "{case}");
            }
            // There is no room for it either.
            let case = case(&book, used, &[0x01], summary);
            assert_eq!(tally.book_add(case), expected, "{case}");
        }
    }
    // The used part would become too long.
    let mut full = LONG;
    full[BOOK_CAPACITY - 1] = 0x00;
    let case = case(&full, BOOK_CAPACITY, &[0x01], rooms(BOOK_CAPACITY));
    let expected = bad(Refusal::NoKind, BOOK_CAPACITY);
    assert_eq!(tally.book_add(case), expected);
    tally.finish(5 * 3 * 7 + 1);
}

#[test]
fn the_summary_comes_before_the_added_record() {
    let differs = BookRefusal::from(Refusal::SummaryDiffers);
    let records = REFUSED_RECORDS.map(|(record, _)| record);
    let mut cases: Vec<(Addition<'_>, BookRefusal)> = Vec::new();
    for record in records.into_iter().chain([&[][..], &[0x01]]) {
        // With room for it and without.
        cases.push((case(&LONG[..9], 3, record, OTHER), differs));
        cases.push((case(&LONG[..3], 3, record, OTHER), differs));
        cases.push((case(&LONG[..9], 0, record, OTHER), differs));
    }
    cases.push((case(&LONG, BOOK_CAPACITY, &[0x01], OTHER), differs));
    cases.push((case(&[], 0, &[0x01], OTHER), differs));
    expect_all("23 and another cause", &cases);
}

#[test]
fn the_added_record_comes_before_the_lengths() {
    let mut cases = Vec::new();
    for (record, refusal) in REFUSED_RECORDS
        .into_iter()
        .chain([(&[][..], Refusal::NoKind)])
    {
        let refusal = BookRefusal::from(refusal);
        cases.push((case(&LONG[..3], 3, record, rooms(3)), refusal));
        cases.push((case(&LONG[..9], 3, record, rooms(3)), refusal));
        let full = rooms(BOOK_CAPACITY);
        cases.push((case(&LONG, BOOK_CAPACITY, record, full), refusal));
        let slice = &LONG[..BOOK_CAPACITY];
        cases.push((case(slice, BOOK_CAPACITY, record, full), refusal));
    }
    expect_all("a refused record and another cause", &cases);
}

/// The order in a record: 9, 10, 11, 14, 12, 13.
#[test]
fn causes_of_the_added_record() {
    let pairs = [
        (&[0x00, 0x60][..], Refusal::NoKind),       // and bytes after
        (&[0x04, 0x60], Refusal::BodyShort),        // and a run missing
        (&[0x02, 0xc1, 0x00], Refusal::BytesAfter), // and 14 and 12
        (&[0x02, 0x00, 0x01], Refusal::BytesAfter), // and 13
        (&[0x02, 0x61], Refusal::SpareBit),         // and 12
        (&[0x02, 0x01], Refusal::SpareBit),         // and 13
        (&[0x03, 0x60], Refusal::RunMissing),       // and 13
    ];
    let refusal = BookRefusal::from;
    let cases =
        pairs.map(|(record, cause)| (case(&LONG[..9], 2, record, rooms(2)), refusal(cause)));
    expect_all("records with two causes", &cases);
}

/// The same in a book, where bytes after a body are the next record.
#[test]
fn causes_of_a_record_in_the_book() {
    let pairs = [
        (&[0x00, 0x60][..], Refusal::NoKind, 1),
        (&[0x04, 0x60], Refusal::BodyShort, 1),
        (&[0x02, 0xc1, 0x00], Refusal::SpareBit, 1),
        (&[0x02, 0x60, 0x00], Refusal::RunMissing, 1),
        (&[0x03, 0x60], Refusal::RunMissing, 1),
        (&[0x02, 0x00, 0x01], Refusal::RunsLeft, 1),
        (&[0x02, 0x40, 0x00], Refusal::NoKind, 2),
        (&[0x01, 0x01, 0x02], Refusal::BodyShort, 3),
    ];
    let none = Summary::default();
    let cases = pairs.map(|(book, cause, ordinal)| {
        let expected = BookRefusal::of_record(cause, ordinal);
        (case(book, book.len(), &[0x01], none), expected)
    });
    expect_all("records in a book with two causes", &cases);
}

#[test]
fn the_longest_book_comes_before_the_slice() {
    let (full, summary) = (BOOK_CAPACITY, rooms(BOOK_CAPACITY));
    let long = BookRefusal::from(Refusal::BookLength);
    let short = BookRefusal::from(Refusal::SliceShort);
    let near = rooms(full - 1);
    expect_all(
        "21 for the lengthened book, and 15",
        &[
            (case(&LONG[..full], full, &[0x01], summary), long),
            (case(&LONG[..full], full - 1, &[0x02, 0x40], near), long),
            (case(&LONG[..full - 1], full - 1, &[0x02, 0x40], near), long),
            (case(&LONG, full - 1, &[0x02, 0x40], near), long),
            (case(&LONG[..full - 1], full - 1, &[0x01], near), short),
            (case(&LONG[..8], 7, &[0x02, 0x40], rooms(7)), short),
            (case(&[], 0, &[0x01], rooms(0)), short),
        ],
    );
    assert_eq!(summary_of(&LONG[..8]), Ok(rooms(8)));
}

/// The order where a place is asked for: 22, 21, the end, and then the record.
#[test]
fn causes_where_a_place_is_asked_for() {
    let mut tally = Tally::new("places with two causes");
    let mut long = LONG;
    long[0] = 0x00;
    long[BOOK_CAPACITY + 1] = 0x02;
    let longer = BOOK_CAPACITY + 1;
    let outside = || refused(Refusal::PlaceOutside);
    let too_long = || refused(Refusal::BookLength);
    let cases = [
        (&long[..BOOK_CAPACITY], longer, 0, outside()),
        (&long[..BOOK_CAPACITY], longer, longer + 1, outside()),
        (&long[..], longer, longer + 1, outside()),
        (&long[..], longer, usize::MAX, outside()),
        (&long[..], usize::MAX, 0, outside()),
        (&long[..], usize::MAX, usize::MAX, outside()),
        (&[][..], 0, 1, outside()),
        (&[0x00][..], 2, 0, outside()),
        (&[0x00][..], 1, 2, outside()),
        (&long[..], longer, 0, too_long()),          // and 9
        (&long[..], longer, longer, too_long()),     // at the end
        (&long[..], longer + 1, longer, too_long()), // and 10
        (&long[..], BOOK_CAPACITY, 0, bad(Refusal::NoKind, 1)),
        (&long[..], BOOK_CAPACITY, BOOK_CAPACITY, Ok(None)),
        (&[0x00, 0x00][..], 1, 1, Ok(None)), // 9 behind the end
        (&[][..], 0, 0, Ok(None)),
    ];
    for (book, used, place, expected) in cases {
        let answer = tally.book_next(book, used, place);
        assert_eq!(answer, expected, "{place} of {used} of {}", book.len());
    }
    tally.finish(16);
}
