//! Books with random damage.

use compare::{Addition, Tally};
use reference::cases::book::{Book, Shelf};
use reference::cases::Random;
use reference::Refusal;

/// Damage to the bytes of a book.
fn damage(bytes: &mut Vec<u8>, random: &mut Random) {
    if bytes.is_empty() {
        return bytes.push(random.byte());
    }
    let place = random.below(bytes.len());
    match random.below(8) {
        0..=2 => bytes[place] ^= 1 << random.below(8),
        3 => bytes[place] = random.byte(),
        4 => bytes[place] = random.pick(&[0x00, 0x01, 0xff]),
        5 => drop(bytes.remove(place)),
        6 => bytes.insert(place, random.byte()),
        _ => bytes.truncate(place),
    }
}

/// Compares a book with damage: adding a record, and reading from some places.
fn compare_damaged(tally: &mut Tally, book: &Book, quickly: bool, random: &mut Random) {
    let mut bytes = book.bytes.clone();
    for _ in 0..random.pick(&[0, 1, 1, 1, 2, 3]) {
        damage(&mut bytes, random);
    }
    let used = bytes.len();
    let lent = [&bytes[..], &vec![0xee; random.below(5)]].concat();
    let case = Addition {
        book: &lent,
        used,
        record: random.pick(&[&[0x01], &[0x02, 0x40], &[0x02, 0x00]]),
        summary: book.summary,
    };
    let _ = match quickly {
        true => tally.book_add_quickly(case),
        false => tally.book_add(case),
    };
    let places = [0; 4].map(|_| random.between(0, used));
    let _ = tally.book_next_at(&lent, used, &places);
    let _ = tally.read_on(&lent, used);
}

#[test]
fn small_books_with_damage() {
    const BOOKS: usize = 15_000;
    let name = "small books with damage";
    let tally = Tally::of_rounds(name, 451, 0..BOOKS, |tally, random, _| {
        let last = random.pick(&[3, 6, 12, 60]);
        let shelf = Shelf::new(4, [1, last], random);
        let book = shelf.book(random.below(8), random);
        compare_damaged(tally, &book, false, random);
    });
    tally.expect_often(300, &Refusal::IN_BOOKS);
    tally.expect_often(300, &[Refusal::SliceShort]);
    tally.expect_often(10, &[Refusal::SummaryDiffers]);
    tally.finish(5 * BOOKS);
}

#[test]
fn large_books_with_damage() {
    const BOOKS: usize = 300;
    let name = "large books with damage";
    let shelf = Shelf::new(200, [1, 255], &mut Random::from_seed(452));
    let tally = Tally::of_rounds(name, 453, 0..BOOKS, |tally, random, round| {
        let length = random.between(10_000, 65_000);
        let book = shelf.book_of_length(length, random);
        compare_damaged(tally, &book, round % 20 > 0, random);
    });
    tally.expect_often(3, &Refusal::IN_BOOKS);
    tally.finish(5 * BOOKS);
}
