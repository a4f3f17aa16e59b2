//! The comparison of a case of "Book next".

use crate::lent::{shown, Input, Surroundings, SURROUNDINGS};
use crate::outcome::number;
use crate::tally::Tally;
use reference::BookRefusal;

/// What a place of a book is answered with: the length of the record that
/// begins there, if any.
pub type Answer = Result<Option<usize>, BookRefusal>;

/// A refusal as the library gives it: its number, and the ordinal of a record.
pub(crate) type Number = (u32, Option<usize>);

pub(crate) fn book_number(bad: BookRefusal) -> Number {
    (number(bad.refusal), bad.ordinal)
}

pub(crate) fn library_number(bad: nenturxo::BookError) -> Number {
    (bad.error.number(), bad.ordinal)
}

impl Tally {
    /// Hands a place of a book to the library, to the definitions and to the
    /// fast Rust version, and gives the answer that all three agree on.
    ///
    /// # Panics
    ///
    /// If they differ, or if a record is another part of the bytes, or if the
    /// library writes anywhere.
    pub fn book_next(&mut self, book: &[u8], used: usize, place: usize) -> Answer {
        self.book_next_at(book, used, &[place])[0]
    }

    /// As [`Self::book_next`], for many places of a book.
    ///
    /// # Panics
    ///
    /// As there.
    pub fn book_next_at(&mut self, book: &[u8], used: usize, places: &[usize]) -> Vec<Answer> {
        let answer = |&place: &usize| {
            let next = reference::book_next(book, used, place);
            next.map(|record| record.map(<[u8]>::len))
        };
        let answers: Vec<Answer> = places.iter().map(answer).collect();
        for around in SURROUNDINGS {
            compare(book, used, places, &answers, around);
        }
        for answer in &answers {
            self.count(&answer.map_err(|bad| bad.refusal));
        }
        answers
    }

    /// Reads a book from its first place on, and gives the places that are asked
    /// for, the last of which is answered with the end or a refusal, and that
    /// answer.
    ///
    /// # Panics
    ///
    /// As [`Self::book_next`].
    pub fn read_on(&mut self, book: &[u8], used: usize) -> (Vec<usize>, Answer) {
        let mut places = vec![0];
        let mut place = 0;
        while let Ok(Some(record)) = nenturxo::book_next(book, used, place) {
            place += record.len();
            places.push(place);
        }
        let answers = self.book_next_at(book, used, &places);
        let (&last, others) = answers.split_last().expect("at least one place");
        assert!(others.iter().all(|answer| answer.is_ok()));
        (places, last)
    }
}

/// Holds the library and the fast Rust version to the answers.
fn compare(book: &[u8], used: usize, places: &[usize], answers: &[Answer], around: Surroundings) {
    let lent = Input::new(book, around);
    let bytes = lent.slice();
    for (&place, answer) in places.iter().zip(answers) {
        let part = |length: usize| (bytes[place..].as_ptr(), length);
        let expected = answer.map(|record| record.map(part));
        let fast = reference::fast::book_next(bytes, used, place).map(|record| record.map(located));
        let library = nenturxo::book_next(bytes, used, place).map(|record| record.map(located));
        assert!(
            fast == expected && library.map_err(library_number) == expected.map_err(book_number),
            "the versions differ\n\
             case     place {place}, used {used}, book {}\n\
             library  {library:?}\n\
             expected {expected:?}\n\
             fast     {fast:?}",
            shown(book)
        );
    }
    lent.expect_still(book);
}

/// Where a record stands, and its length.
fn located(record: &[u8]) -> (*const u8, usize) {
    (record.as_ptr(), record.len())
}
