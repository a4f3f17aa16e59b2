//! The calls, as they are timed.

use crate::books::{book_with_places, FullBook};
use crate::case::Case;
use crate::groups::GroupedPlan;
use crate::outputs::{Drawing, Numbers};
use crate::room_list::RoomList;
use crate::sizes::{Corners, SizedPlan};
use crate::timing::{one_turn, quickest, quickest_of_three, Times};
use nenturxo::{RECORD_CAPACITY, TIDY_CAPACITY, TRACE_LENGTH, TREE_CAPACITY};
use reference::fast;

/// A call by name.
#[derive(Clone, Copy)]
pub struct Call {
    pub name: &'static str,
    /// Takes the times of so many calls of the library and of the tuned Rust
    /// version.
    pub times: fn(&[Case], usize) -> Times,
    /// Takes the time of the Rust version that is written straight from the
    /// sheet.
    pub sheet: fn(&[Case]) -> f64,
}

pub const LABELS_IN: Call = Call {
    name: "Labels in",
    times: |cases, calls| {
        let [mut record, mut same] = [[0; RECORD_CAPACITY]; 2];
        quickest(
            cases,
            calls,
            |case| nenturxo::labels_in(&case.labels, &mut record),
            |case| fast::labels_in(&case.labels, &mut same),
        )
    },
    sheet: |cases| {
        let mut record = [0; RECORD_CAPACITY];
        one_turn(cases, |case| {
            reference::labels_in(&case.labels, &mut record)
        })
    },
};

pub const RECORD_IN: Call = Call {
    name: "Record in",
    times: |cases, calls| {
        let (mut drawing, mut same) = (Drawing::of_library(), Drawing::of_rust());
        quickest(
            cases,
            calls,
            |case| drawing.by_library(&case.record),
            |case| same.by_tuned(&case.record),
        )
    },
    sheet: |cases| {
        let mut drawing = Drawing::of_rust();
        one_turn(cases, |case| drawing.by_sheet(&case.record))
    },
};

pub const ROOMS_IN: Call = Call {
    name: "Rooms in",
    times: |cases, calls| rooms_in(cases, calls, |case| &case.list),
    sheet: |cases| {
        let mut numbers = Numbers::new();
        one_turn(cases, |case| numbers.by_sheet(&case.list))
    },
};

pub const QUESTION: Call = Call {
    name: "Question",
    times: |cases, calls| {
        quickest(
            cases,
            calls,
            |case| nenturxo::question(&case.record, case.first, case.second),
            |case| fast::question(&case.record, case.first, case.second),
        )
    },
    sheet: |cases| {
        one_turn(cases, |case| {
            reference::question(&case.record, case.first, case.second)
        })
    },
};

pub const TIDY: Call = Call {
    name: "Tidy",
    times: |cases, calls| tidy(cases, calls, |case| &case.text),
    sheet: |cases| {
        let mut tidied = [0; TIDY_CAPACITY];
        one_turn(cases, |case| reference::tidy(&case.text, &mut tidied))
    },
};

pub const TREE: Call = Call {
    name: "Tree",
    times: |cases, calls| {
        let [mut tree, mut same] = [[0; TREE_CAPACITY]; 2];
        quickest(
            cases,
            calls,
            |case| nenturxo::tree(&case.slicing, &mut tree),
            |case| fast::tree(&case.slicing, &mut same),
        )
    },
    sheet: |cases| {
        let mut tree = [0; TREE_CAPACITY];
        one_turn(cases, |case| reference::tree(&case.slicing, &mut tree))
    },
};

pub const PATTERN: Call = Call {
    name: "Pattern",
    times: |cases, calls| pattern(cases, calls, |case| &case.barred),
    sheet: |cases| one_turn(cases, |case| reference::pattern(&case.barred)),
};

pub const BOOK_NEXT: Call = Call {
    name: "Book next",
    times: |cases, calls| book_next(cases, calls).0,
    sheet: |cases| {
        let (book, places) = book_with_places(cases);
        let used = book.len();
        one_turn(&places, |&place| {
            reference::book_next(&book, used, place).is_ok()
        })
    },
};

pub const LOWEST_CORNERS: Call = Call {
    name: "Lowest corners",
    times: |cases, calls| lowest_corners(cases, calls, |case| &case.sized),
    sheet: |cases| {
        let mut corners = Corners::new();
        one_turn(cases, |case| {
            corners.by(reference::lowest_corners, &case.sized)
        })
    },
};

pub const SLACK: Call = Call {
    name: "Slack",
    times: |cases, calls| slack(cases, calls, |case| &case.sized),
    sheet: |cases| one_turn(cases, |case| case.sized.slack_by(reference::slack)),
};

pub const PLACING_IN: Call = Call {
    name: "Placing in",
    times: |cases, calls| placing_in(cases, calls, |case| &case.sized),
    sheet: |cases| one_turn(cases, |case| case.sized.placed_by(reference::placing_in)),
};

pub const GROUPS: Call = Call {
    name: "Groups",
    times: |cases, calls| groups(cases, calls, |case| &case.grouped),
    sheet: |cases| one_turn(cases, |case| case.grouped.by(reference::groups)),
};

pub const TRACE: Call = Call {
    name: "Trace",
    times: |cases, calls| trace(cases, calls, |case| &case.trace.bytes),
    sheet: |cases| trace_by_sheet(cases, |case| &case.trace.bytes),
};

/// The times of so many calls of "Rooms in" on the lists of cases, accepted or
/// refused.
pub fn rooms_in<T>(cases: &[T], calls: usize, list_of: impl Fn(&T) -> &RoomList) -> Times {
    let [mut numbers, mut same] = [Numbers::new(), Numbers::new()];
    quickest(
        cases,
        calls,
        |case| numbers.by_library(list_of(case)),
        |case| same.by_tuned(list_of(case)),
    )
}

/// The times of so many calls of "Tidy" on the texts of cases, accepted or
/// refused.
pub fn tidy<T>(cases: &[T], calls: usize, text_of: impl Fn(&T) -> &[u8]) -> Times {
    let [mut tidied, mut same] = [[0; TIDY_CAPACITY]; 2];
    quickest(
        cases,
        calls,
        |case| nenturxo::tidy(text_of(case), &mut tidied),
        |case| fast::tidy(text_of(case), &mut same),
    )
}

/// The times of so many calls of "Tree" on records, accepted or refused, and
/// after them that of the version that recurses on intervals of labels.
pub fn tree(records: &[Vec<u8>], calls: usize) -> (Times, f64) {
    let [mut tree, mut same, mut again] = [[0; TREE_CAPACITY]; 3];
    quickest_of_three(
        records,
        calls,
        |record| nenturxo::tree(record, &mut tree),
        |record| fast::tree(record, &mut same),
        |record| fast::tree_by_intervals(record, &mut again),
    )
}

/// The times of so many calls of "Pattern" on the label lists of cases, with a
/// pattern or without.
pub fn pattern<T>(cases: &[T], calls: usize, labels_of: impl Fn(&T) -> &[u8]) -> Times {
    quickest(
        cases,
        calls,
        |case| nenturxo::pattern(labels_of(case)),
        |case| fast::pattern(labels_of(case)),
    )
}

/// The times of so many calls of "Book next" in a book of the records of cases,
/// and after them that of the version that goes triple by triple.
pub fn book_next(cases: &[Case], calls: usize) -> (Times, f64) {
    let (book, places) = book_with_places(cases);
    let used = book.len();
    quickest_of_three(
        &places,
        calls,
        |&place| nenturxo::book_next(&book, used, place).is_ok(),
        |&place| fast::book_next(&book, used, place).is_ok(),
        |&place| fast::book_next_by_triples(&book, used, place).is_ok(),
    )
}

/// The times of so many calls of "Book add" on full books: before them that of
/// the version from the sheet, and after them that of the version that goes
/// triple by triple. Each call gets the used length and the summary that the
/// book had before, so each does the whole work.
pub fn book_add(books: &[FullBook], calls: usize) -> (f64, Times, f64) {
    let copies = || -> Vec<Vec<u8>> { books.iter().map(|book| book.lent.clone()).collect() };
    let [mut lent, mut same, mut again, mut once] = [copies(), copies(), copies(), copies()];
    let indexes: Vec<usize> = (0..books.len()).collect();
    let sheet = one_turn(&indexes, |&at| {
        books[at].add_by(reference::book_add, &mut once[at])
    });
    let (times, by_triples) = quickest_of_three(
        &indexes,
        calls,
        |&at| books[at].add_by_library(&mut lent[at]),
        |&at| books[at].add_by(fast::book_add, &mut same[at]),
        |&at| books[at].add_by(fast::book_add_by_triples, &mut again[at]),
    );
    (sheet, times, by_triples)
}

/// The times of so many calls of "Lowest corners" on the sized plans of cases.
pub fn lowest_corners<T>(cases: &[T], calls: usize, plan_of: impl Fn(&T) -> &SizedPlan) -> Times {
    let [mut corners, mut same] = [Corners::new(), Corners::new()];
    quickest(
        cases,
        calls,
        |case| corners.by_library(plan_of(case)),
        |case| same.by(fast::lowest_corners, plan_of(case)),
    )
}

/// The times of so many calls of "Slack" on the sized plans of cases.
pub fn slack<T>(cases: &[T], calls: usize, plan_of: impl Fn(&T) -> &SizedPlan) -> Times {
    quickest(
        cases,
        calls,
        |case| plan_of(case).slack_by_library(),
        |case| plan_of(case).slack_by(fast::slack),
    )
}

/// The times of so many calls of "Placing in" on the placings of cases, accepted
/// or refused.
pub fn placing_in<T>(cases: &[T], calls: usize, plan_of: impl Fn(&T) -> &SizedPlan) -> Times {
    quickest(
        cases,
        calls,
        |case| plan_of(case).placed_by_library(),
        |case| plan_of(case).placed_by(fast::placing_in),
    )
}

/// The times of so many calls of "Groups" on the groups of cases, accepted or
/// refused.
pub fn groups<T>(cases: &[T], calls: usize, plan_of: impl Fn(&T) -> &GroupedPlan) -> Times {
    quickest(
        cases,
        calls,
        |case| plan_of(case).by_library(),
        |case| plan_of(case).by(fast::groups),
    )
}

/// The times of so many calls of "Trace" on the traces of cases.
pub fn trace<T>(cases: &[T], calls: usize, trace_of: impl Fn(&T) -> &[u8]) -> Times {
    let [mut states, mut same] = [vec![0; TRACE_LENGTH], vec![0; TRACE_LENGTH]];
    quickest(
        cases,
        calls,
        |case| nenturxo::trace(trace_of(case), &mut states),
        |case| fast::trace(trace_of(case), &mut same),
    )
}

/// The time of the version of "Trace" that is written straight from the sheet.
pub fn trace_by_sheet<T>(cases: &[T], trace_of: impl Fn(&T) -> &[u8]) -> f64 {
    let mut states = vec![0; TRACE_LENGTH];
    one_turn(cases, |case| reference::trace(trace_of(case), &mut states))
}
