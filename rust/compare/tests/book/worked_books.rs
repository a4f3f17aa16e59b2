//! Books of the sheet's plans, whose totals can be counted by eye.

use crate::help::{addition, expect_records, lent};
use compare::{Addition, Tally};
use reference::cases::book::Book;
use reference::cases::walk::{each_walk, Walked};
use reference::cases::worked::{code_of_figure_7, LISTS};
use reference::{labels_of, triples, Summary};

/// A plan by its labels.
fn plan(labels: &[u8]) -> Walked {
    Walked {
        labels: labels.to_vec(),
        triples: triples(labels),
    }
}

#[test]
fn totals_of_the_sheet_s_plans() {
    // How often a label is larger, and how often smaller, than the one before.
    let totals = [
        (&[1][..], 0, 0),
        (&[1, 2], 1, 0),
        (&[2, 1], 0, 1),
        (&[3, 4, 1, 2], 2, 1),
        (&[4, 1, 3, 5, 2], 2, 2),
        (&[4, 1, 3, 6, 5, 2], 2, 3),
        (&[5, 2, 1, 4, 6, 3], 2, 3),
        (&[2, 7, 3, 1, 5, 6, 4], 3, 3),
    ];
    assert_eq!(totals.map(|(labels, ..)| labels), LISTS.map(|list| list.0));
    let mut tally = Tally::new("books of the sheet's plans");
    let (mut book, mut summary) = (vec![0xee; 30], Summary::default());
    let mut used = 0;
    for ((labels, record), (_, rises, falls)) in LISTS.into_iter().zip(totals) {
        let case = Addition {
            book: &book,
            used,
            record,
            summary,
        };
        tally.expect_added(case);
        let mut by_library = compare::of_library::summary(summary);
        used = nenturxo::book_add(&mut book, used, record, &mut by_library)
            .expect("a record of the sheet");
        summary.plans += 1;
        summary.rooms += labels.len() as u32;
        summary.rises += rises;
        summary.falls += falls;
        assert_eq!(by_library, compare::of_library::summary(summary));
    }
    let whole = Book::of(&LISTS.map(|(labels, _)| plan(labels)));
    assert_eq!((&whole.bytes[..], whole.summary), (&book[..used], summary));
    expect_records(&mut tally, &whole, &book);
    tally.finish(8 + 9);
}

#[test]
fn the_code_printed_with_figure_7_of_001() {
    let triples = code_of_figure_7();
    let labels = labels_of(&triples).expect("a plan");
    let book = Book::of([&Walked { labels, triples }]);
    // 000 011 101 000 110 111: the third bits are 0 1 1 0 0 1.
    assert_eq!(book.summary.totals(), [1, 7, 3, 3]);
    let mut tally = Tally::new("the code of figure 7 of 001");
    tally.expect_added(addition(&book, &lent(&book, 4), &book.bytes));
    expect_records(&mut tally, &book, &book.bytes);
    tally.finish(1 + 2);
}

#[test]
fn books_of_no_record_and_of_one() {
    let mut tally = Tally::new("books of no record and of one");
    for labels in [&[1][..], &[1, 2], &[2, 1], &[4, 1, 3, 5, 2]] {
        let (none, one) = (Book::default(), Book::of([&plan(labels)]));
        tally.expect_added(addition(&none, &lent(&none, one.bytes.len()), &one.bytes));
        tally.expect_added(addition(&one, &lent(&one, one.bytes.len()), &one.bytes));
        expect_records(&mut tally, &none, &lent(&none, 7));
        expect_records(&mut tally, &none, &[]);
        expect_records(&mut tally, &one, &lent(&one, 7));
        expect_records(&mut tally, &one, &one.bytes);
    }
    tally.finish(4 * (2 + 1 + 1 + 2 + 2));
}

/// Rises and falls of a book are those of its plans: over all plans of n rooms
/// there are as many of the one as of the other, since a plan upside down has
/// them exchanged.
#[test]
fn a_book_of_every_plan_of_1_to_5_rooms() {
    let mut book = Book::default();
    for n in 1..=5 {
        each_walk(n, |triples| {
            let labels = labels_of(triples).expect("a walk has labels");
            let triples = triples.to_vec();
            book.add(&Walked { labels, triples });
        });
    }
    let rooms = 1 + 2 * 2 + 3 * 6 + 4 * 22 + 5 * 92;
    let plans = 1 + 2 + 6 + 22 + 92;
    let half = (rooms - plans) / 2;
    assert_eq!(book.summary.totals(), [plans, rooms, half, half]);
    let mut tally = Tally::new("a book of every plan of 1 to 5 rooms");
    let lent = lent(&book, 5);
    tally.expect_added(addition(&book, &lent, &[0x05, 0x31, 0x70]));
    expect_records(&mut tally, &book, &lent);
    tally.finish(1 + 124);
}
