//! Books, made of records that are accepted, whose summaries are therefore
//! known.

use super::walk::{list_in_turn, Walked};
use super::Random;
use crate::{Refusal, Summary};

/// A book: its used part, where its records begin, and its summary.
#[derive(Clone, Debug, Default, PartialEq, Eq)]
pub struct Book {
    /// The records one after another.
    pub bytes: Vec<u8>,
    /// Where each of them begins.
    pub places: Vec<usize>,
    /// The totals.
    pub summary: Summary,
}

impl Book {
    /// The book of these plans, in order.
    pub fn of<'a>(plans: impl IntoIterator<Item = &'a Walked>) -> Self {
        let mut book = Self::default();
        plans.into_iter().for_each(|plan| book.add(plan));
        book
    }

    /// One more record.
    pub fn add(&mut self, plan: &Walked) {
        self.places.push(self.bytes.len());
        self.bytes.extend(plan.record());
        let falls = plan.triples.iter().filter(|triple| triple[2]).count();
        let rises = plan.triples.len() - falls;
        let more = [1, plan.labels.len(), rises, falls];
        let mut totals = self.summary.totals();
        for (total, more) in totals.iter_mut().zip(more) {
            *total += more as u64;
        }
        self.summary = Summary::with(totals);
    }

    /// The records, each by itself.
    pub fn records(&self) -> impl Iterator<Item = &[u8]> {
        let ends = self.places.iter().skip(1).copied();
        let ends = ends.chain([self.bytes.len()]);
        self.places
            .iter()
            .zip(ends)
            .map(|(&from, to)| &self.bytes[from..to])
    }

    /// The bytes with others in the place of a record, by its index.
    #[must_use]
    pub fn with_instead(&self, index: usize, other: &[u8]) -> Vec<u8> {
        let from = self.places[index];
        let to = self.places.get(index + 1).copied();
        let to = to.unwrap_or(self.bytes.len());
        [&self.bytes[..from], other, &self.bytes[to..]].concat()
    }
}

/// Plans to make books of. To take them again and again is quicker than to make
/// so many as a large book has.
#[derive(Clone, Debug)]
pub struct Shelf(Vec<Walked>);

impl Shelf {
    /// So many random plans, each of `first` to `last` rooms.
    pub fn new(plans: usize, [first, last]: [usize; 2], random: &mut Random) -> Self {
        let plan = |round| list_in_turn(random.between(first, last), round, random);
        Self((0..plans).map(plan).collect())
    }

    /// One of the plans.
    pub fn plan(&self, random: &mut Random) -> &Walked {
        &self.0[random.below(self.0.len())]
    }

    /// A book of so many of the plans.
    pub fn book(&self, plans: usize, random: &mut Random) -> Book {
        let mut book = Book::default();
        for _ in 0..plans {
            book.add(self.plan(random));
        }
        book
    }

    /// A book of just so many bytes: as many of the plans as it can hold, with
    /// plans of one room, which have one byte, before them or behind.
    pub fn book_of_length(&self, length: usize, random: &mut Random) -> Book {
        let mut plans = Vec::new();
        let mut left = length;
        loop {
            let plan = self.plan(random);
            let Some(fewer) = left.checked_sub(plan.record().len()) else {
                break;
            };
            plans.push(plan);
            left = fewer;
        }
        let one_room = Walked::rising(1);
        let before = random.between(0, left);
        let one_rooms = |count| std::iter::repeat_n(&one_room, count);
        Book::of(
            one_rooms(before)
                .chain(plans)
                .chain(one_rooms(left - before)),
        )
    }
}

/// A record for each refusal that a book can have for one. The one that is too
/// short must be the last of its book.
pub const BAD_RECORDS: [(&[u8], Refusal); 5] = [
    (&[0x00], Refusal::NoKind),
    (&[0x05, 0x31], Refusal::BodyShort),
    (&[0x02, 0x41], Refusal::SpareBit),
    (&[0x02, 0x60], Refusal::RunMissing),
    (&[0x02, 0x00], Refusal::RunsLeft),
];

#[cfg(test)]
mod tests {
    use super::{Book, Shelf, BAD_RECORDS};
    use crate::cases::worked::LISTS;
    use crate::cases::Random;
    use crate::{summary_of, BookRefusal};

    #[test]
    fn books_have_the_summaries_that_their_bytes_say() {
        let mut random = Random::from_seed(171);
        let shelf = Shelf::new(40, [1, 60], &mut random);
        for plans in [0, 1, 2, 3, 40] {
            let book = shelf.book(plans, &mut random);
            assert_eq!(summary_of(&book.bytes), Ok(book.summary), "{book:?}");
            assert_eq!(book.records().count(), plans);
            assert_eq!(book.records().collect::<Vec<_>>().concat(), book.bytes);
        }
        for length in [0, 1, 2, 97, 1_000] {
            let book = shelf.book_of_length(length, &mut random);
            assert_eq!(book.bytes.len(), length);
            assert_eq!(summary_of(&book.bytes), Ok(book.summary), "{book:?}");
        }
    }

    #[test]
    fn bad_records_are_bad_for_their_causes() {
        let mut random = Random::from_seed(172);
        let book: Book = Shelf::new(8, [1, 9], &mut random).book(5, &mut random);
        for (bad, refusal) in BAD_RECORDS {
            let bytes = book.with_instead(4, bad);
            let expected = BookRefusal::of_record(refusal, 5);
            assert_eq!(summary_of(&bytes), Err(expected), "{bytes:02x?}");
        }
        let bytes = book.with_instead(2, LISTS[4].1);
        assert!(summary_of(&bytes).is_ok_and(|summary| summary.plans == 5));
    }
}
