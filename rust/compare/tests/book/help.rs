//! What several of the tests are made of.

use compare::{Addition, Tally};
use reference::cases::book::Book;
use reference::{BookRefusal, Refusal};

/// The record of one room, which has one byte.
pub const ONE_ROOM: &[u8] = &[0x01];

/// The bytes of a book, and so many more that are lent.
pub fn lent(book: &Book, more: usize) -> Vec<u8> {
    [&book.bytes[..], &vec![0xee; more]].concat()
}

/// A record to be added to a book, in just so many bytes.
pub fn addition<'a>(book: &Book, lent: &'a [u8], record: &'a [u8]) -> Addition<'a> {
    Addition {
        book: lent,
        used: book.bytes.len(),
        record,
        summary: book.summary,
    }
}

/// A bad record in a book.
pub fn bad<A>(refusal: Refusal, ordinal: usize) -> Result<A, BookRefusal> {
    Err(BookRefusal::of_record(refusal, ordinal))
}

/// Any other refusal.
pub fn refused<A>(refusal: Refusal) -> Result<A, BookRefusal> {
    Err(refusal.into())
}

/// Reads a book through, which must give its records and then the end.
pub fn expect_records(tally: &mut Tally, book: &Book, lent: &[u8]) {
    let used = book.bytes.len();
    let (places, last) = tally.read_on(lent, used);
    let expected = [&book.places[..], &[used]].concat();
    assert_eq!((places, last), (expected, Ok(None)), "{:02X?}", book.bytes);
}
