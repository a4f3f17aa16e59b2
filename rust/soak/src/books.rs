//! Inputs of "Book next" and of "Book add".

use crate::records::damaged;
use crate::size::{by_definitions, capacities};
use compare::{Addition, Tally};
use reference::cases::book::{Book, Shelf};
use reference::cases::Random;
use reference::{Summary, BOOK_CAPACITY};
use std::sync::OnceLock;

/// Places of each book.
const PLACES: usize = 5;

/// Additions to each book.
const ADDITIONS: usize = 5;

/// Books of so many bytes are always held to the definitions.
const SHORT: usize = 200;

/// Asks for places of a book, or of the same book with damage.
pub fn read_some(tally: &mut Tally, random: &mut Random) {
    let mut book = some_book(random);
    if random.below(2) == 0 {
        damage_a_record(&mut book, random);
    }
    let lent = lent_for(&book, random);
    let used = some_used(&book, &lent, random);
    let places: Vec<usize> = (0..PLACES)
        .map(|_| some_place(&book, used, random))
        .collect();
    let _ = tally.book_next_at(&lent, used, &places);
}

/// Adds records to a book, most of them good ones, and some to the same book
/// with damage or with another summary.
pub fn add_some(tally: &mut Tally, random: &mut Random) {
    let book = some_book(random);
    for _ in 0..ADDITIONS {
        let mut changed = book.clone();
        match random.below(8) {
            0 | 1 => damage_a_record(&mut changed, random),
            2 => changed.summary = other_summary(book.summary, random),
            _ => {}
        }
        add(tally, &changed, random);
    }
}

/// Adds some record to a book.
fn add(tally: &mut Tally, book: &Book, random: &mut Random) {
    let mut record = shelves().small.plan(random).record();
    if random.below(4) == 0 {
        record = damaged(&record, random);
    }
    let [lent] = capacities([book.bytes.len() + record.len()], random);
    let mut lent = vec![random.byte(); lent.max(book.bytes.len())];
    lent[..book.bytes.len()].copy_from_slice(&book.bytes);
    let case = Addition {
        book: &lent,
        used: match random.below(8) {
            0 => some_used(book, &lent, random),
            _ => book.bytes.len(),
        },
        record: &record,
        summary: book.summary,
    };
    let _ = if by_definitions(book.bytes.len(), SHORT, random) {
        tally.book_add(case)
    } else {
        tally.book_add_quickly(case)
    };
}

/// Plans to make books of, found once for all batches.
struct Shelves {
    small: Shelf,
    any: Shelf,
}

fn shelves() -> &'static Shelves {
    static SHELVES: OnceLock<Shelves> = OnceLock::new();
    SHELVES.get_or_init(|| {
        let mut random = Random::from_seed(0);
        Shelves {
            small: Shelf::new(300, [1, 12], &mut random),
            any: Shelf::new(300, [1, 255], &mut random),
        }
    })
}

/// A book: mostly of a few records, at times one that is as long as can be, or
/// too long.
fn some_book(random: &mut Random) -> Book {
    let shelf = match random.below(4) {
        0 => &shelves().any,
        _ => &shelves().small,
    };
    match random.below(100) {
        0 => shelf.book_of_length(BOOK_CAPACITY - random.below(3), random),
        1 => Book {
            bytes: vec![0x01; BOOK_CAPACITY + random.between(1, 3)],
            places: vec![0, 1, BOOK_CAPACITY],
            summary: Summary::default(),
        },
        _ => shelf.book(random.below(12), random),
    }
}

/// The bytes of a book, and mostly some more that are lent.
fn lent_for(book: &Book, random: &mut Random) -> Vec<u8> {
    let more = random.pick(&[0, 0, 1, 2, 7, 100, 200]);
    let behind = vec![random.byte(); more];
    [&book.bytes[..], &behind].concat()
}

/// A used length: mostly that of the book, at times another.
fn some_used(book: &Book, lent: &[u8], random: &mut Random) -> usize {
    match random.below(16) {
        0 => lent.len() + random.pick(&[1, 2, 97, 65_536]),
        1 => lent.len(),
        2 => random.between(0, book.bytes.len()),
        _ => book.bytes.len(),
    }
}

/// A place: mostly one where a record begins, at times the end or any.
fn some_place(book: &Book, used: usize, random: &mut Random) -> usize {
    match random.below(16) {
        0 => used.saturating_add(random.pick(&[1, 2, 97])),
        1 => random.between(0, used.min(BOOK_CAPACITY + 1)),
        2 => used,
        _ => match book.places[..] {
            [] => 0,
            ref places => random.pick(places),
        },
    }
}

/// Damage to one of the records, if there are any, so that the places of those
/// before it still hold.
fn damage_a_record(book: &mut Book, random: &mut Random) {
    let Some(last) = book.places.len().checked_sub(1) else {
        return;
    };
    let any = random.between(0, last);
    let index = random.pick(&[0, last, any]);
    let record: Vec<u8> = book.records().nth(index).expect("a record").to_vec();
    book.bytes = book.with_instead(index, &damaged(&record, random));
}

/// Totals of which one or two are off.
fn other_summary(summary: Summary, random: &mut Random) -> Summary {
    let mut totals = summary.totals();
    for _ in 0..random.pick(&[1, 1, 2]) {
        let by = random.pick(&[1, u64::from(u32::MAX), 1 << 16, 1 << 31]);
        let which = random.below(4);
        totals[which] = (totals[which] + by) % (1 << 32);
    }
    Summary::with(totals)
}
