//! What stands behind the used part: it does not matter, and does not change.

use crate::help::{addition, ONE_ROOM};
use compare::{Addition, Tally};
use reference::cases::book::{Shelf, BAD_RECORDS};
use reference::cases::Random;

/// What may stand behind a book: bytes of one value, bytes that go on with a
/// record that the book ends in, bad records, and any.
fn behinds(random: &mut Random) -> Vec<Vec<u8>> {
    let mut behinds: Vec<Vec<u8>> = [0x00, 0x01, 0x40, 0xff]
        .map(|byte| vec![byte; 200])
        .to_vec();
    behinds.extend(BAD_RECORDS.map(|(record, _)| record.repeat(100)));
    behinds.push((0..200).map(|_| random.byte()).collect());
    behinds
}

#[test]
fn answers_are_the_same_whatever_stands_behind() {
    let mut tally = Tally::new("books with anything behind them");
    let mut random = Random::from_seed(441);
    let shelf = Shelf::new(30, [1, 60], &mut random);
    for plans in 0..40 {
        let book = shelf.book(plans, &mut random);
        let record = shelf.plan(&mut random).record();
        let mut answers = Vec::new();
        for behind in behinds(&mut random) {
            let lent = [&book.bytes[..], &behind].concat();
            tally.expect_added(addition(&book, &lent, &record));
            answers.push(tally.read_on(&lent, book.bytes.len()));
        }
        assert!(answers.windows(2).all(|two| two[0] == two[1]));
    }
    tally.finish(40 * 10 * 2);
}

/// A used length inside the last record: the bytes that would make it whole are
/// there, but behind.
#[test]
fn a_record_is_not_made_whole_by_what_stands_behind() {
    let mut tally = Tally::new("books that end in a record that goes on");
    let mut random = Random::from_seed(442);
    let shelf = Shelf::new(30, [2, 255], &mut random);
    for plans in 1..60 {
        let book = shelf.book(plans, &mut random);
        let last = book.places[plans - 1];
        for used in last + 1..book.bytes.len() {
            let case = Addition {
                used,
                ..addition(&book, &book.bytes, ONE_ROOM)
            };
            let answer = tally.book_add_quickly(case);
            assert!(answer.is_err_and(|bad| bad.ordinal == Some(plans)));
            let answer = tally.book_next(&book.bytes, used, last);
            assert!(answer.is_err_and(|bad| bad.ordinal == Some(1)));
        }
    }
    tally.finish(1_000);
}
