//! A bad record in a book: its own number and its ordinal, wherever it stands.

use crate::help::{addition, bad, ONE_ROOM};
use compare::damage::Damage;
use compare::{Addition, Tally};
use reference::cases::book::{Book, Shelf, BAD_RECORDS};
use reference::cases::Random;
use reference::Refusal;

/// Compares a book in which bad bytes stand instead of a record, by its index:
/// adding, and reading on.
fn expect_bad(tally: &mut Tally, book: &Book, index: usize, bytes: &[u8], refusal: Refusal) {
    let damaged = book.with_instead(index, bytes);
    for more in [0, 1, 100, 300] {
        let lent = [&damaged[..], &vec![0x01; more]].concat();
        let case = Addition {
            used: damaged.len(),
            ..addition(book, &lent, ONE_ROOM)
        };
        tally.expect_bad_record(case, refusal, index + 1);
        let (places, last) = tally.read_on(&lent, damaged.len());
        assert_eq!(last, bad(refusal, 1), "{damaged:02X?}");
        assert_eq!(places, book.places[..=index], "{damaged:02X?}");
    }
}

/// The indexes of the first, a middle and the last record.
fn first_middle_last(book: &Book) -> [usize; 3] {
    let records = book.places.len();
    [0, records / 2, records - 1]
}

#[test]
fn each_refusal_in_the_first_record_in_the_middle_and_in_the_last() {
    let mut tally = Tally::new("bad records, first, in the middle and last");
    let mut random = Random::from_seed(411);
    for plans in [1, 2, 3, 10, 400] {
        let book = Shelf::new(20, [1, 40], &mut random).book(plans, &mut random);
        for index in first_middle_last(&book) {
            for (bytes, refusal) in BAD_RECORDS {
                // The bytes of a record that is too short must be the last.
                if refusal != Refusal::BodyShort || index == plans - 1 {
                    expect_bad(&mut tally, &book, index, bytes, refusal);
                }
            }
        }
    }
    tally.expect_often(50, &Refusal::IN_BOOKS);
    tally.finish(1_000);
}

/// A kind that is larger than the bytes that follow, not in the last record:
/// those after it are then its body.
#[test]
fn bodies_that_the_used_part_ends_in() {
    let mut tally = Tally::new("records that the used part ends in");
    let mut random = Random::from_seed(412);
    let shelf = Shelf::new(20, [1, 12], &mut random);
    for plans in 1..=12 {
        let book = shelf.book(plans, &mut random);
        for index in 0..plans {
            let mut bytes = book.bytes.clone();
            bytes[book.places[index]] = 0xff;
            let case = addition(&book, &bytes, ONE_ROOM);
            tally.expect_bad_record(case, Refusal::BodyShort, index + 1);
            let (_, last) = tally.read_on(&bytes, bytes.len());
            assert_eq!(last, bad(Refusal::BodyShort, 1), "{bytes:02X?}");
        }
    }
    tally.finish(2 * 12 * 6);
}

/// Every used length that ends inside a record, the last one then.
#[test]
fn used_lengths_inside_a_record() {
    let mut tally = Tally::new("used lengths inside a record");
    let mut random = Random::from_seed(413);
    let book = Shelf::new(20, [1, 255], &mut random).book(12, &mut random);
    let ends = [&book.places[1..], &[book.bytes.len()]].concat();
    for (index, (&from, to)) in book.places.iter().zip(ends).enumerate() {
        for used in from + 1..to {
            let case = Addition {
                used,
                ..addition(&book, &book.bytes, ONE_ROOM)
            };
            tally.expect_bad_record(case, Refusal::BodyShort, index + 1);
            let next = tally.book_next(&book.bytes, used, from);
            assert_eq!(next, bad(Refusal::BodyShort, 1), "{used}: {book:02X?}");
        }
    }
    tally.finish(400);
}

/// What damage leaves of a record, be it of any size, in a book: not bytes too
/// many, which would be the next record.
#[test]
fn records_with_every_damage() {
    const TIMES: usize = 40;
    let damages: Vec<Damage> = Damage::all().filter(|damage| in_a_book(*damage)).collect();
    let name = "damaged records in books";
    let rounds = damages.iter().flat_map(|&damage| [damage; TIMES]);
    let tally = Tally::of_rounds(name, 414, rounds, |tally, random, damage| {
        let refusal = damage.refusal().expect("some damage");
        let book = Shelf::new(6, [1, 30], random).book(random.between(1, 9), random);
        let last = book.places.len() - 1;
        let index = match refusal {
            Refusal::BodyShort => last,
            _ => random.between(0, last),
        };
        expect_bad(tally, &book, index, &damage.record(random), refusal);
    });
    tally.expect_often(100, &Refusal::IN_BOOKS);
    tally.finish(damages.len() * TIMES * 8);
}

/// Whether there is some damage, and it is one that a record in a book can have.
fn in_a_book(damage: Damage) -> bool {
    let refusal = damage.refusal();
    refusal.is_some_and(|refusal| refusal != Refusal::BytesAfter)
}

/// Two bad records: the first one counts, whatever its number.
#[test]
fn the_first_bad_record_counts() {
    let mut tally = Tally::new("two bad records");
    let mut random = Random::from_seed(415);
    let shelf = Shelf::new(20, [1, 40], &mut random);
    for (first, refusal) in BAD_RECORDS {
        for (second, _) in BAD_RECORDS {
            if refusal == Refusal::BodyShort {
                continue;
            }
            let book = shelf.book(9, &mut random);
            let mut bytes = book.with_instead(8, second);
            bytes.splice(book.places[5]..book.places[6], first.iter().copied());
            let case = Addition {
                used: bytes.len(),
                ..addition(&book, &bytes, ONE_ROOM)
            };
            tally.expect_bad_record(case, refusal, 6);
        }
    }
    tally.finish(4 * 5);
}
