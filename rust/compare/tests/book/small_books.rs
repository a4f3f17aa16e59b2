//! Every book that is short enough, with every used length and place.

use compare::{Addition, Tally};
use reference::cases::every_list;
use reference::{summary_of, Refusal, Summary};

/// Bytes that records of up to 5 rooms are made of, and bad ones: kinds, and
/// bodies of records that are accepted, have a spare bit, lack a run or leave
/// one.
const BYTES: [u8; 10] = [0x00, 0x01, 0x02, 0x03, 0x05, 0x31, 0x40, 0x70, 0xa0, 0xc1];

/// Every list of so many of these bytes.
fn every_book(length: u32) -> impl Iterator<Item = Vec<u8>> {
    let lists = every_list(BYTES.len() as u8 - 1, length);
    lists.map(|list| list.iter().map(|&at| BYTES[usize::from(at)]).collect())
}

/// Asks for every place of a book, with every used length, and one beyond each.
fn ask_everywhere(tally: &mut Tally, book: &[u8]) {
    for used in 0..=book.len() + 1 {
        let places: Vec<usize> = (0..=used + 1).collect();
        let _ = tally.book_next_at(book, used, &places);
    }
}

#[test]
fn every_place_of_every_string_of_up_to_2_bytes() {
    let mut tally = Tally::new("places of strings of up to 2 bytes");
    for length in 0..=2 {
        every_list(255, length).for_each(|book| ask_everywhere(&mut tally, &book));
    }
    // Of n bytes there are n + 2 used lengths, with 2 to n + 3 places.
    let places = [2 + 3, 2 + 3 + 4, 2 + 3 + 4 + 5];
    let strings = [1, 256, 65_536];
    let cases = (0..3).map(|length| places[length] * strings[length]).sum();
    assert_eq!(tally.cases(), cases);
    tally.expect_refused([Refusal::BookLength, Refusal::BytesAfter], [0, 0]);
    // Only at the first place is there a body of 2 or 3 rooms.
    let (two_rooms, three_rooms) = ([4, 2], [44, 14]);
    let counts = [0, 1].map(|which| two_rooms[which] + three_rooms[which]);
    tally.expect_refused([Refusal::RunMissing, Refusal::RunsLeft], counts);
    tally.expect_often(200, &[Refusal::PlaceOutside, Refusal::SpareBit]);
    tally.finish(cases);
}

#[test]
fn every_body_of_4_to_6_rooms() {
    let mut tally = Tally::new("bodies of 4 to 6 rooms");
    for n in 4..=6u8 {
        for body in 0..=u16::MAX {
            let [first, second] = body.to_be_bytes();
            let _ = tally.book_next(&[n, first, second], 3, 0);
        }
    }
    assert_eq!(tally.accepted(), 22 + 92 + 422);
    tally.finish(3 * 65_536);
}

#[test]
fn every_place_of_every_small_book() {
    let mut tally = Tally::new("places of small books");
    for length in 0..=5 {
        every_book(length).for_each(|book| ask_everywhere(&mut tally, &book));
    }
    tally.expect_often(1_000, &Refusal::IN_BOOKS);
    tally.finish(111_111 * 5);
}

#[test]
fn every_string_of_up_to_2_bytes_as_a_book() {
    let mut tally = Tally::new("additions to strings of up to 2 bytes");
    for length in 0..=2 {
        for book in every_list(255, length) {
            let used = book.len();
            let lent = [&book[..], &[0xee; 2]].concat();
            let case = Addition {
                book: &lent,
                used,
                record: &[0x02, 0xa0],
                summary: summary_of(&book).unwrap_or_default(),
            };
            let _ = tally.book_add(case);
        }
    }
    // No record, one of 1 to 3 rooms, or two of one room.
    assert_eq!(tally.accepted(), 1 + 1 + 2 + 6 + 1);
    tally.expect_often(10, &Refusal::IN_BOOKS);
    tally.finish(1 + 256 + 65_536);
}

#[test]
fn every_string_of_up_to_2_bytes_as_a_record() {
    let mut tally = Tally::new("strings of up to 2 bytes, added");
    let one_room = summary_of(&[0x01]).expect("a record");
    for length in 0..=2 {
        for record in every_list(255, length) {
            for (used, summary) in [(0, Summary::default()), (1, one_room)] {
                let case = Addition {
                    book: &[0x01, 0xee, 0xee],
                    used,
                    record: &record,
                    summary,
                };
                let _ = tally.book_add(case);
            }
        }
    }
    assert_eq!(tally.accepted(), 2 * (1 + 2 + 6));
    tally.expect_often(20, &Refusal::OF_RECORDS);
    tally.finish(2 * (1 + 256 + 65_536));
}

#[test]
fn additions_to_every_small_book_with_every_used_length() {
    let mut tally = Tally::new("additions to small books");
    for length in 0..=4 {
        for book in every_book(length) {
            for used in 0..=book.len() + 1 {
                let part = &book[..used.min(book.len())];
                let summary = summary_of(part).unwrap_or_default();
                for record in [&[0x01][..], &[0x02, 0x40], &[0x02, 0x60]] {
                    let case = Addition {
                        book: &book,
                        used,
                        record,
                        summary,
                    };
                    let _ = tally.book_add(case);
                }
            }
        }
    }
    assert!(tally.accepted() > 1_000);
    let refusals = [Refusal::PlaceOutside, Refusal::SliceShort];
    tally.expect_often(40, &refusals);
    tally.expect_often(400, &Refusal::IN_BOOKS);
    tally.finish(11_111 * 3 * 2);
}
