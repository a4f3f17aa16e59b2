//! Summaries that are not the book's.

use crate::help::{addition, lent, ONE_ROOM};
use compare::{Addition, Tally};
use reference::cases::book::{Book, Shelf};
use reference::cases::Random;
use reference::{Refusal, Summary};

/// Totals that differ by these numbers, of 32 bits and therefore round and round.
fn changed(summary: Summary, by: [u64; 4]) -> Summary {
    let mut totals = summary.totals();
    for (total, by) in totals.iter_mut().zip(by) {
        *total = (*total + by) % (1 << 32);
    }
    Summary::with(totals)
}

/// Books of no plan, of one, of some and of many.
fn books(random: &mut Random) -> Vec<Book> {
    let shelf = Shelf::new(20, [1, 60], random);
    let counts = [0, 1, 2, 7, 300];
    counts.map(|plans| shelf.book(plans, random)).to_vec()
}

/// Compares a book with a summary that is not its own.
fn expect_differing(tally: &mut Tally, book: &Book, summary: Summary) {
    assert_ne!(summary, book.summary);
    let lent = lent(book, 10);
    // A record that would be refused too, and a slice that has no room.
    for (bytes, record) in [(&lent, ONE_ROOM), (&lent, &[]), (&book.bytes, ONE_ROOM)] {
        let case = Addition {
            summary,
            ..addition(book, bytes, record)
        };
        tally.expect_refused_addition(case, Refusal::SummaryDiffers);
    }
}

/// One less, in 32 bits.
const LESS: u64 = u32::MAX as u64;

#[test]
fn one_total_is_one_more_or_less() {
    let mut tally = Tally::new("summaries with one total one off");
    for book in books(&mut Random::from_seed(421)) {
        for which in 0..4 {
            for by in [1, LESS] {
                let mut change = [0; 4];
                change[which] = by;
                expect_differing(&mut tally, &book, changed(book.summary, change));
            }
        }
    }
    tally.finish(5 * 4 * 2 * 3);
}

#[test]
fn one_total_differs_in_one_bit() {
    let mut tally = Tally::new("summaries with one bit off");
    for book in books(&mut Random::from_seed(422)) {
        for which in 0..4 {
            for bit in 0..32 {
                let mut totals = book.summary.totals();
                totals[which] ^= 1 << bit;
                expect_differing(&mut tally, &book, Summary::with(totals));
            }
        }
    }
    tally.finish(5 * 4 * 32 * 3);
}

/// Changes that a sum of totals, or a word that holds several of them, would
/// not show, be it round and round.
#[test]
fn changes_that_make_up_for_each_other() {
    let mut tally = Tally::new("summaries whose sums agree");
    for book in books(&mut Random::from_seed(423)) {
        for one in 0..4 {
            for other in (0..4).filter(|&other| other != one) {
                for by in [1, 2, 1 << 16, 1 << 31, LESS - 1] {
                    let mut change = [0; 4];
                    change[one] = by;
                    change[other] = (1 << 32) - by;
                    expect_differing(&mut tally, &book, changed(book.summary, change));
                }
            }
        }
        for by in [[1, 1, 0, 0], [0, 1, 1, 0], [0, 1, 0, 1], [1, 1, 1, 1]] {
            for times in [1, 1 << 8, 1 << 16, 1 << 31, LESS] {
                let change = by.map(|by: u64| by * times % (1 << 32));
                expect_differing(&mut tally, &book, changed(book.summary, change));
            }
        }
    }
    tally.finish(5 * 3 * (12 * 5 + 4 * 5));
}

/// Totals in each other's places, and those of another book.
#[test]
fn totals_that_are_those_of_something_else() {
    let mut tally = Tally::new("summaries of something else");
    let books = books(&mut Random::from_seed(424));
    for book in &books {
        let [plans, rooms, rises, falls] = book.summary.totals();
        let others = [
            [rooms, plans, rises, falls],
            [plans, rooms, falls, rises],
            [plans, rises, rooms, falls],
            [plans, rooms, rises + falls, 0],
            [plans, rooms, rooms - plans, falls],
            [0; 4],
        ];
        let others = others.map(Summary::with).into_iter();
        let of_books = books.iter().map(|book| book.summary);
        for summary in others.chain(of_books).filter(|&s| s != book.summary) {
            expect_differing(&mut tally, book, summary);
        }
    }
    tally.finish(5 * 5 * 3);
}
