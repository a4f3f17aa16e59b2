//! The calls.

use crate::{books, counts, groups, labels, patterns, records, rooms, sizes, texts, traces};
use compare::Tally;
use reference::cases::Random;
use reference::Refusal;

/// Inputs of a batch.
pub const BATCH: usize = 1_000;

/// A call of the library.
pub struct Call {
    name: &'static str,
    /// Compares some inputs, a number of which [`BATCH`] is a multiple.
    compare_some: fn(&mut Tally, &mut Random),
    /// What it can be refused with, in the sheet's order: for its input, and
    /// then for the slices or the positions that come with it, if any do.
    refusals: [&'static [Refusal]; 2],
}

/// What output slices can be refused with.
const OF_SLICES: &[Refusal] = &[Refusal::SliceShort];

/// What the positions of a question can be refused with.
const OF_POSITIONS: &[Refusal] = &[Refusal::PositionOutside, Refusal::PositionsEqual];

/// What adding to a book can be refused with besides what the book is refused
/// with: a record may have bytes too many, and the slice too few.
const OF_ADDING: &[Refusal] = &[Refusal::BytesAfter, Refusal::SliceShort];

/// The calls of the library.
pub const CALLS: [Call; 16] = [
    Call {
        name: "Labels in",
        compare_some: labels::compare_some,
        refusals: [&Refusal::OF_LABELS, OF_SLICES],
    },
    Call {
        name: "Record in",
        compare_some: records::compare_some,
        refusals: [&Refusal::OF_RECORDS, OF_SLICES],
    },
    Call {
        name: "Question",
        compare_some: records::ask_some,
        refusals: [&Refusal::OF_RECORDS, OF_POSITIONS],
    },
    Call {
        name: "Rooms in",
        compare_some: rooms::compare_some,
        refusals: [&Refusal::OF_ROOMS, OF_SLICES],
    },
    Call {
        name: "Tidy",
        compare_some: texts::compare_some,
        refusals: [&Refusal::OF_TEXTS, OF_SLICES],
    },
    Call {
        name: "Tree",
        compare_some: records::cut_some,
        refusals: [&Refusal::OF_TREES, OF_SLICES],
    },
    Call {
        name: "Pattern",
        compare_some: patterns::compare_some,
        refusals: [&Refusal::OF_PATTERNS, &[]],
    },
    Call {
        name: "Book next",
        compare_some: books::read_some,
        refusals: [&Refusal::OF_NEXT, &[]],
    },
    Call {
        name: "Book add",
        compare_some: books::add_some,
        refusals: [&Refusal::OF_BOOKS, OF_ADDING],
    },
    Call {
        name: "Lowest corners",
        compare_some: sizes::put_some_low,
        refusals: [&Refusal::OF_SIZES, OF_SLICES],
    },
    Call {
        name: "Slack",
        compare_some: sizes::outline_some,
        refusals: [&Refusal::OF_SIZES, &[]],
    },
    Call {
        name: "Placing in",
        compare_some: sizes::place_some,
        refusals: [&Refusal::OF_PLACINGS, &[]],
    },
    Call {
        name: "Groups",
        compare_some: groups::compare_some,
        refusals: [&Refusal::OF_GROUPS, &[]],
    },
    Call {
        name: "Trace",
        compare_some: traces::compare_some,
        refusals: [&Refusal::OF_TRACES, OF_SLICES],
    },
    Call {
        name: "Plan count",
        compare_some: counts::count_some,
        refusals: [&Refusal::OF_COUNTS, &[]],
    },
    Call {
        name: "Plan total",
        compare_some: counts::total_some,
        refusals: [&Refusal::OF_COUNTS, &[]],
    },
];

impl Call {
    /// No input yet.
    pub fn tally(&self) -> Tally {
        Tally::new(self.name)
    }

    /// Compares a batch of inputs.
    ///
    /// # Panics
    ///
    /// At the first difference.
    pub fn compare(&self, tally: &mut Tally, random: &mut Random) {
        let end = tally.cases() + BATCH;
        while tally.cases() < end {
            (self.compare_some)(tally, random);
        }
    }

    /// Stops unless a fifth of the inputs was accepted, and of the others
    /// every refusal that the call can give has its share and no other one
    /// came up.
    ///
    /// # Panics
    ///
    /// If not so.
    pub fn check(&self, tally: &Tally) {
        let (name, cases) = (self.name, tally.cases());
        assert!(5 * tally.accepted() >= cases, "{name}: too few accepted");
        for refusal in Refusal::ALL {
            let (count, number) = (tally.refused(refusal), refusal.number());
            if self.refusals.concat().contains(&refusal) {
                assert!(1_000 * count >= cases, "{name}: too few with {number}");
            } else {
                assert_eq!(count, 0, "{name}: refused with {number}");
            }
        }
    }
}
