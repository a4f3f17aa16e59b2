//! "Book next" and "Book add", by a walk over each record that knows no label.
//!
//! Whether a record is accepted, and how many of its third bits are 1, is all
//! that a book asks. For that the two counts of runs are enough: a run is
//! missing exactly if one of them falls below 0. The quick walk only tells
//! whether a record is accepted. Why it is not is found by a slow one, once.
//!
//! All but the steps of the walk is the same for a version that takes them in
//! another way.

mod counting;
mod few;
mod forms;
mod refusal;
mod steps;
mod walk;

use super::steps::body_of;
use crate::{BookRefusal, Refusal, Summary, BOOK_CAPACITY};
use counting::{Count, Counted};
pub(super) use refusal::refusal_at_the_front;
use steps::ByFours;
pub(super) use steps::{four, four_at_the_end, BELOW_0};
use walk::falls;
pub(super) use walk::{last_word, word, End, Walk, WINDOW};

/// Book next, with the answers of [`crate::book_next`].
///
/// # Errors
///
/// As there.
// Not inlined, so that a benchmark pays for a call as with a library.
#[inline(never)]
pub fn book_next(book: &[u8], used: usize, place: usize) -> Result<Option<&[u8]>, BookRefusal> {
    next::<ByFours>(book, used, place)
}

/// Book add, with the answers of [`crate::book_add`].
///
/// # Errors
///
/// As there.
#[inline(never)]
pub fn book_add(
    book: &mut [u8],
    used: usize,
    record: &[u8],
    summary: &mut Summary,
) -> Result<usize, BookRefusal> {
    add::<ByFours>(book, used, record, summary)
}

/// [`book_next`], with the steps taken in this way.
#[inline(always)]
pub(super) fn next<W: Walk>(
    book: &[u8],
    used: usize,
    place: usize,
) -> Result<Option<&[u8]>, BookRefusal> {
    if used > book.len() || place > used {
        return Err(Refusal::PlaceOutside.into());
    }
    if used > BOOK_CAPACITY {
        return Err(Refusal::BookLength.into());
    }
    let rest = &book[place..used];
    let Some(&kind) = rest.first() else {
        return Ok(None);
    };
    let record = rest.get(..forms::length(kind));
    // Near the end of the book the walk needs bytes that are not there.
    let falls = match book[place..].first_chunk() {
        Some(window) => falls::<W>(kind, window),
        None => falls::<W>(kind, &padded(rest)),
    };
    match (record, falls) {
        (Some(record), Some(_)) => Ok(Some(record)),
        _ => Err(BookRefusal::of_record(refusal_at_the_front(rest), 1)),
    }
}

/// [`book_add`], with the steps taken in this way.
#[inline(always)]
pub(super) fn add<W: Walk>(
    book: &mut [u8],
    used: usize,
    record: &[u8],
    summary: &mut Summary,
) -> Result<usize, BookRefusal> {
    if used > book.len() {
        return Err(Refusal::PlaceOutside.into());
    }
    if used > BOOK_CAPACITY {
        return Err(Refusal::BookLength.into());
    }
    let mut count = count_of::<W>(book, used)?;
    if *summary != count.summary() {
        return Err(Refusal::SummaryDiffers.into());
    }
    let (n, falls) = rooms_and_falls::<W>(record, &padded(record))?;
    let lengthened = used + record.len();
    if lengthened > BOOK_CAPACITY {
        return Err(Refusal::BookLength.into());
    }
    let behind = book.get_mut(used..lengthened);
    behind.ok_or(Refusal::SliceShort)?.copy_from_slice(record);
    count.add(n as u32, falls);
    *summary = count.summary();
    Ok(lengthened)
}

/// The number of rooms of a record, of which the window is a copy, or one of 9,
/// 10, 11, 14, 12 and 13.
#[inline(always)]
pub(super) fn accepted(record: &[u8], window: &[u8; WINDOW]) -> Result<usize, Refusal> {
    rooms_and_falls::<ByFours>(record, window).map(|(n, _)| n)
}

/// The number of rooms of a record, of which the window is a copy, and that of
/// its third bits that are 1, or one of 9, 10, 11, 14, 12 and 13.
#[inline(always)]
fn rooms_and_falls<W: Walk>(record: &[u8], window: &[u8; WINDOW]) -> Result<(usize, u32), Refusal> {
    let (n, _) = body_of(record)?;
    match falls::<W>(n as u8, window) {
        Some(falls) => Ok((n, falls)),
        None => Err(refusal_at_the_front(record)),
    }
}

/// What is counted in the used part of a book.
fn count_of<W: Walk>(book: &[u8], used: usize) -> Result<Count, BookRefusal> {
    let mut counted = Counted::default();
    counted.go_on::<W>(book, used);
    if counted.place < used && counted.near_the_end(book) {
        // The rest is short; a copy of it has the bytes that the walk needs.
        let from = counted.place;
        let mut rest = [0; 2 * WINDOW];
        rest[..used - from].copy_from_slice(&book[from..used]);
        counted.place = 0;
        counted.go_on::<W>(&rest, used - from);
        counted.place += from;
    }
    if counted.place < used {
        let refusal = refusal_at_the_front(&book[counted.place..used]);
        let ordinal = counted.count.plans as usize + 1;
        return Err(BookRefusal::of_record(refusal, ordinal));
    }
    Ok(counted.count)
}

/// The first bytes of a slice, and zeros if there are fewer.
#[inline(always)]
pub(super) fn padded(bytes: &[u8]) -> [u8; WINDOW] {
    let mut window = [0; WINDOW];
    let length = bytes.len().min(WINDOW);
    window[..length].copy_from_slice(&bytes[..length]);
    window
}

#[cfg(test)]
mod tests {
    use crate::fast::book_checks::{self, Version};
    use crate::fast::{book_add, book_next};

    const VERSION: Version = Version {
        next: book_next,
        add: book_add,
    };

    #[test]
    fn agrees_with_the_definitions_on_every_code_of_up_to_7_rooms() {
        book_checks::every_code_of_up_to_7_rooms(VERSION);
    }

    #[test]
    fn agrees_with_the_definitions_on_every_book_of_up_to_2_bytes() {
        book_checks::every_book_of_up_to_2_bytes(VERSION);
    }

    #[test]
    fn agrees_with_the_definitions_on_records_of_every_kind_with_every_last_byte() {
        book_checks::records_of_every_kind_with_every_last_byte(VERSION);
    }

    #[test]
    fn agrees_with_the_definitions_where_the_runs_are_most() {
        book_checks::where_the_runs_are_most(VERSION);
    }

    #[test]
    fn agrees_with_the_definitions_on_random_books() {
        book_checks::random_books(VERSION);
    }

    #[test]
    fn agrees_with_the_definitions_on_full_books_and_bad_records_in_them() {
        book_checks::full_books_and_bad_records_in_them(VERSION);
    }
}
