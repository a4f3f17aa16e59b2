//! Random books up to the largest: built record by record, and read through.

use crate::help::{addition, expect_records, lent, ONE_ROOM};
use compare::{of_library, Tally};
use reference::cases::book::{Book, Shelf};
use reference::cases::walk::{some_count, Walked};
use reference::cases::Random;
use reference::BOOK_CAPACITY;

/// The bytes and the summary of a book that the library was handed record by
/// record, in a slice of so many bytes.
fn built(book: &Book, lent: usize) -> (Vec<u8>, nenturxo::Summary) {
    let (mut bytes, mut summary) = (vec![0xee; lent], nenturxo::Summary::default());
    let mut used = 0;
    for record in book.records() {
        used = nenturxo::book_add(&mut bytes, used, record, &mut summary)
            .unwrap_or_else(|bad| panic!("{bad}: {record:02X?} to {:02X?}", &bytes[..used]));
    }
    assert!(bytes[used..].iter().all(|&byte| byte == 0xee));
    bytes.truncate(used);
    (bytes, summary)
}

/// Stops unless a book that is built record by record is the one that was made
/// at once.
fn expect_built(book: &Book, lent: usize) {
    let (bytes, summary) = built(book, lent);
    assert_eq!(bytes, book.bytes);
    assert_eq!(summary, of_library::summary(book.summary), "{bytes:02X?}");
}

#[test]
fn books_built_record_by_record_are_those_made_at_once() {
    const BOOKS: usize = 300;
    let name = "books built record by record";
    let tally = Tally::of_rounds(name, 461, 0..BOOKS, |tally, random, _| {
        let last = some_count(random);
        let shelf = Shelf::new(12, [1, last], random);
        let book = shelf.book(random.below(60), random);
        expect_built(&book, book.bytes.len() + random.below(100));
        expect_records(tally, &book, &book.bytes);
    });
    tally.finish(BOOKS);
}

#[test]
fn a_full_book_is_built_of_the_largest_records() {
    let mut random = Random::from_seed(462);
    let shelf = Shelf::new(100, [255, 255], &mut random);
    let book = shelf.book_of_length(BOOK_CAPACITY, &mut random);
    // 675 of 97 bytes, and one byte each for the other 60.
    assert_eq!(book.summary.plans, 675 + 60);
    expect_built(&book, BOOK_CAPACITY);
    let mut tally = Tally::new("a full book of the largest records");
    expect_records(&mut tally, &book, &book.bytes);
    tally.finish(736);
}

/// As far as a test has time for: each addition judges the whole book again.
#[test]
fn books_are_built_of_many_small_records() {
    let mut random = Random::from_seed(463);
    let shelf = Shelf::new(100, [1, 5], &mut random);
    expect_built(&shelf.book(3_000, &mut random), BOOK_CAPACITY);
}

#[test]
fn random_large_books() {
    const BOOKS: usize = 60;
    let name = "random large books";
    let mut random = Random::from_seed(464);
    let shelves = [[1, 5], [1, 40], [1, 255], [200, 255]];
    let shelves = shelves.map(|rooms| Shelf::new(60, rooms, &mut random));
    let tally = Tally::of_rounds(name, 465, 0..BOOKS, |tally, random, round| {
        let shelf = &shelves[round % shelves.len()];
        let book = shelf.book_of_length(random.between(20_000, 65_000), random);
        let lent = lent(&book, 97);
        let record = shelf.plan(random).record();
        let case = addition(&book, &lent, &record);
        let answer = match round % 8 {
            0..4 => tally.book_add(case),
            _ => tally.book_add_quickly(case),
        };
        assert_eq!(answer, Ok(book.bytes.len() + record.len()));
        expect_records(tally, &book, &lent);
    });
    tally.finish(BOOKS * 100);
}

/// The plans with the most runs on the way, and those with none beside the
/// current one, in the same book.
#[test]
fn books_of_plans_at_the_limits() {
    let mut plans = Walked::with_128_runs().to_vec();
    for n in [1, 2, 5, 6, 16, 17, 18, 33, 254, 255] {
        plans.push(Walked::rising(n));
        plans.push(Walked::falling(n));
    }
    let mut tally = Tally::new("books of plans at the limits");
    let mut random = Random::from_seed(466);
    for _ in 0..200 {
        random.shuffle(&mut plans);
        let book = Book::of(&plans);
        let lent = lent(&book, 1);
        tally.expect_added(addition(&book, &lent, ONE_ROOM));
        expect_records(&mut tally, &book, &lent);
    }
    tally.finish(200 * 24);
}

/// Every count of rooms, with as many records before it as after it.
#[test]
fn a_record_of_every_count_of_rooms() {
    let mut tally = Tally::new("records of every count of rooms in a book");
    let mut random = Random::from_seed(467);
    for n in 1..=255 {
        let shelf = Shelf::new(4, [n, n], &mut random);
        let book = shelf.book(5, &mut random);
        let record = shelf.plan(&mut random).record();
        let lent = lent(&book, record.len());
        tally.expect_added(addition(&book, &lent, &record));
        expect_records(&mut tally, &book, &lent);
    }
    tally.finish(255 * 7);
}
