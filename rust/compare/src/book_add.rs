//! The comparison of a case of "Book add".

use crate::book_next::{book_number, library_number, Number};
use crate::lent::{shown, Input, Surroundings, SURROUNDINGS};
use crate::of_library;
use crate::tally::Tally;
use reference::{BookRefusal, Refusal, Summary};
use std::fmt;

/// What adding a record is answered with: the new used length.
pub type Answer = Result<usize, BookRefusal>;

/// A case of "Book add": what is handed in.
#[derive(Clone, Copy)]
pub struct Addition<'a> {
    /// The bytes that are lent for the book.
    pub book: &'a [u8],
    /// How many of them are used.
    pub used: usize,
    /// The record to be added.
    pub record: &'a [u8],
    /// What stands beside the book.
    pub summary: Summary,
}

/// What adding answers and leaves.
#[derive(PartialEq, Eq)]
struct After {
    returned: Result<usize, Number>,
    book: Vec<u8>,
    summary: nenturxo::Summary,
}

/// A Rust version of the call.
type Version = fn(&mut [u8], usize, &[u8], &mut Summary) -> Answer;

impl Tally {
    /// Hands a record to be added to the library, to the definitions and to the
    /// fast Rust version, and gives the answer that all three agree on.
    ///
    /// # Panics
    ///
    /// If they differ in their answer, in the summary or in any byte in or
    /// around the slices; or if a refused call changed anything, or another one
    /// anything but the bytes of the record and the summary.
    pub fn book_add(&mut self, case: Addition<'_>) -> Answer {
        self.book_add_as(reference::book_add, case)
    }

    /// As [`Self::book_add`], but leaves out the definitions, which take long
    /// for long books.
    ///
    /// # Panics
    ///
    /// As there.
    pub fn book_add_quickly(&mut self, case: Addition<'_>) -> Answer {
        self.book_add_as(reference::fast::book_add, case)
    }

    fn book_add_as(&mut self, definitions: Version, case: Addition<'_>) -> Answer {
        let (answer, expected) = case.by(definitions);
        let (_, fast) = case.by(reference::fast::book_add);
        for around in SURROUNDINGS {
            let library = case.by_library(around);
            assert!(
                library == expected && fast == expected && case.is_lawful(&expected),
                "the versions differ, or something changed that must not\n\
                 case     {case}\n\
                 library  {library}\n\
                 expected {expected}\n\
                 fast     {fast}"
            );
        }
        self.count(&answer.map_err(|bad| bad.refusal));
        answer
    }

    /// Compares an addition that must be refused, for anything but a record in
    /// the book.
    ///
    /// # Panics
    ///
    /// If the answer is another, or as [`Self::book_add`].
    pub fn expect_refused_addition(&mut self, case: Addition<'_>, refusal: Refusal) {
        assert_eq!(self.book_add(case), Err(refusal.into()), "{case}");
    }

    /// Compares an addition that must be refused for a record in the book.
    ///
    /// # Panics
    ///
    /// If the answer is another, or as [`Self::book_add`].
    pub fn expect_bad_record(&mut self, case: Addition<'_>, refusal: Refusal, ordinal: usize) {
        let expected = Err(BookRefusal::of_record(refusal, ordinal));
        assert_eq!(self.book_add(case), expected, "{case}");
    }

    /// Compares an addition that must be accepted.
    ///
    /// # Panics
    ///
    /// If the answer is another, or as [`Self::book_add`].
    pub fn expect_added(&mut self, case: Addition<'_>) {
        let expected = Ok(case.used + case.record.len());
        assert_eq!(self.book_add(case), expected, "{case}");
    }
}

impl Addition<'_> {
    /// What a Rust version answers and leaves.
    fn by(&self, version: Version) -> (Answer, After) {
        let (mut book, mut summary) = (self.book.to_vec(), self.summary);
        let answer = version(&mut book, self.used, self.record, &mut summary);
        let after = After {
            returned: answer.map_err(book_number),
            book,
            summary: of_library::summary(summary),
        };
        (answer, after)
    }

    /// What the library answers and leaves.
    fn by_library(&self, around: Surroundings) -> After {
        let mut book = Input::new(self.book, around);
        let record = Input::new(self.record, around);
        let mut summary = of_library::summary(self.summary);
        let answer = nenturxo::book_add(book.slice_mut(), self.used, record.slice(), &mut summary);
        record.expect_still(self.record);
        let after = book.slice_mut().to_vec();
        assert!(book.holds(&after), "a call wrote around a book: {self}");
        After {
            returned: answer.map_err(library_number),
            book: after,
            summary,
        }
    }

    /// Whether a refused call left all as it was, and another one changed only
    /// the bytes that the record got and the totals, each as the record's kind
    /// says.
    fn is_lawful(&self, after: &After) -> bool {
        let Ok(length) = after.returned else {
            let summary = of_library::summary(self.summary);
            return after.book == self.book && after.summary == summary;
        };
        let rest = self.book.get(length..);
        let book = rest.map(|rest| [&self.book[..self.used], self.record, rest].concat());
        let n = u32::from(self.record[0]);
        let (before, now) = (self.summary, after.summary);
        book.as_ref() == Some(&after.book)
            && now.plans == before.plans + 1
            && now.rooms == before.rooms + n
            && now.rises + now.falls == before.rises + before.falls + n - 1
    }
}

impl fmt::Display for Addition<'_> {
    fn fmt(&self, f: &mut fmt::Formatter<'_>) -> fmt::Result {
        write!(f, "record [{}], ", shown(self.record))?;
        write!(f, "totals {:?}, ", self.summary.totals())?;
        write!(f, "used {}, book [{}]", self.used, shown(self.book))
    }
}

impl fmt::Display for After {
    fn fmt(&self, f: &mut fmt::Formatter<'_>) -> fmt::Result {
        match self.returned {
            Ok(length) => write!(f, "result {length}, ")?,
            Err((number, None)) => write!(f, "refusal {number}, ")?,
            Err((number, Some(ordinal))) => write!(f, "refusal {number} of record {ordinal}, ")?,
        }
        let nenturxo::Summary {
            plans,
            rooms,
            rises,
            falls,
        } = self.summary;
        write!(f, "totals {:?}, ", [plans, rooms, rises, falls])?;
        write!(f, "book [{}]", shown(&self.book))
    }
}
