//! The library book of M-107, and its calls "Book next" and "Book add".

use crate::record::{record_at_the_front, triples_in};
use crate::runs::labels_of;
use crate::{Refusal, Triple};
use std::fmt;

/// The length of the longest used part of a book.
pub const BOOK_CAPACITY: usize = 65_535;

/// What stands beside a book: unsigned 32-bit totals of the records in it.
#[derive(Clone, Copy, Debug, Default, PartialEq, Eq)]
pub struct Summary {
    /// How many records there are.
    pub plans: u32,
    /// How many rooms they have together.
    pub rooms: u32,
    /// How many third bits are 0.
    pub rises: u32,
    /// How many third bits are 1.
    pub falls: u32,
}

/// Why a call on a book is refused.
#[derive(Clone, Copy, Debug, PartialEq, Eq)]
pub struct BookRefusal {
    /// The cause.
    pub refusal: Refusal,
    /// If that is a bad record in the book, its ordinal, from 1.
    pub ordinal: Option<usize>,
}

impl BookRefusal {
    /// A bad record in a book, with its ordinal.
    #[must_use]
    pub const fn of_record(refusal: Refusal, ordinal: usize) -> Self {
        Self {
            refusal,
            ordinal: Some(ordinal),
        }
    }
}

impl From<Refusal> for BookRefusal {
    /// A refusal for anything but a record in a book.
    fn from(refusal: Refusal) -> Self {
        Self {
            refusal,
            ordinal: None,
        }
    }
}

impl fmt::Display for BookRefusal {
    fn fmt(&self, f: &mut fmt::Formatter<'_>) -> fmt::Result {
        match self.ordinal {
            Some(ordinal) => write!(f, "record {ordinal} of the book: {}", self.refusal),
            None => self.refusal.fmt(f),
        }
    }
}

impl std::error::Error for BookRefusal {}

/// Book next: the record that begins at a place of a book, as that part of its
/// bytes, or `None` at the used length.
///
/// # Errors
///
/// The first cause found in the order 22, 21, and then 9, 10, 14, 12, 13 of that
/// record, which counts as ordinal 1.
pub fn book_next(book: &[u8], used: usize, place: usize) -> Result<Option<&[u8]>, BookRefusal> {
    let part = book.get(..used).ok_or(Refusal::PlaceOutside)?;
    let rest = part.get(place..).ok_or(Refusal::PlaceOutside)?;
    expect_not_too_long(used)?;
    if rest.is_empty() {
        return Ok(None);
    }
    let record = record_at_the_front(rest);
    judged(record).map_err(|refusal| BookRefusal::of_record(refusal, 1))?;
    Ok(Some(record))
}

/// Book add: puts a record behind the used part of a book, adds it to the
/// summary, and gives the new used length.
///
/// All other bytes of the book keep their values.
///
/// # Errors
///
/// The first cause found in the order 22; 21 for the book as it is; 9, 10, 14,
/// 12, 13 of the first record in it that is bad, with its ordinal; 23; 9, 10, 11,
/// 14, 12, 13 of the added record; 21 for the lengthened book; 15. Book and
/// summary are then as they were.
pub fn book_add(
    book: &mut [u8],
    used: usize,
    record: &[u8],
    summary: &mut Summary,
) -> Result<usize, BookRefusal> {
    let part = book.get(..used).ok_or(Refusal::PlaceOutside)?;
    expect_not_too_long(used)?;
    let mut records = records_in(part)?;
    if summary.totals() != totals(&records) {
        return Err(Refusal::SummaryDiffers.into());
    }
    records.push(judged(record)?);
    let lengthened = used + record.len();
    expect_not_too_long(lengthened)?;
    let behind = book.get_mut(used..lengthened);
    behind.ok_or(Refusal::SliceShort)?.copy_from_slice(record);
    *summary = Summary::with(totals(&records));
    Ok(lengthened)
}

/// The totals of the records in the used part of a book, which are defined from
/// its bytes.
///
/// # Errors
///
/// 9, 10, 14, 12, 13 of the first record that is bad, with its ordinal.
pub fn summary_of(part: &[u8]) -> Result<Summary, BookRefusal> {
    records_in(part).map(|records| Summary::with(totals(&records)))
}

/// A book has at most 65,535 bytes.
fn expect_not_too_long(used: usize) -> Result<(), Refusal> {
    if used > BOOK_CAPACITY {
        return Err(Refusal::BookLength);
    }
    Ok(())
}

/// The records that stand one after another in the used part of a book, each as
/// its triples.
fn records_in(part: &[u8]) -> Result<Vec<Vec<Triple>>, BookRefusal> {
    let mut records = Vec::new();
    let mut rest = part;
    while !rest.is_empty() {
        let record = record_at_the_front(rest);
        let bad = |refusal| BookRefusal::of_record(refusal, records.len() + 1);
        let triples = judged(record).map_err(bad)?;
        records.push(triples);
        rest = &rest[record.len()..];
    }
    Ok(records)
}

/// The triples of a record that is accepted.
fn judged(record: &[u8]) -> Result<Vec<Triple>, Refusal> {
    let triples = triples_in(record)?;
    labels_of(&triples)?;
    Ok(triples)
}

/// Plans, rooms, rises and falls of records, each given by its triples: position
/// 1 of a plan has none, and a rise or fall is a third bit of 0 or 1.
fn totals(records: &[Vec<Triple>]) -> [u64; 4] {
    let rooms = records.iter().map(|triples| 1 + triples.len());
    let third_bits: Vec<bool> = records.iter().flatten().map(|triple| triple[2]).collect();
    let falls = third_bits.iter().filter(|&&bit| bit).count();
    let rises = third_bits.len() - falls;
    [records.len(), rooms.sum(), rises, falls].map(|total| total as u64)
}

impl Summary {
    /// The totals in the request's order: plans, rooms, rises, falls.
    #[must_use]
    pub fn totals(&self) -> [u64; 4] {
        [self.plans, self.rooms, self.rises, self.falls].map(u64::from)
    }

    /// The summary with these totals, in the same order.
    ///
    /// # Panics
    ///
    /// If one of them has more than 32 bits: those of a book are far smaller.
    #[must_use]
    pub fn with(totals: [u64; 4]) -> Self {
        let total = |total| u32::try_from(total).expect("a total of 65,535 bytes");
        let [plans, rooms, rises, falls] = totals.map(total);
        Self {
            plans,
            rooms,
            rises,
            falls,
        }
    }
}

#[cfg(test)]
mod tests;
