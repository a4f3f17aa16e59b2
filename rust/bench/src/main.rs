//! Times the calls: the library against the two separately written Rust
//! versions, the one straight from the sheet and the one that is written to be
//! fast, on the same inputs in one run.

#![forbid(unsafe_code)]

mod books;
mod calls;
mod case;
mod counts;
mod groups;
mod lists;
mod names;
mod outputs;
mod room_list;
mod shapes;
mod sizes;
mod texts;
mod timing;
mod traces;

use books::BOOKS;
use calls::{
    book_add, book_next, groups, lowest_corners, pattern, placing_in, rooms_in, slack, tidy, trace,
    trace_by_sheet, tree, Call, BOOK_NEXT, GROUPS, LABELS_IN, LOWEST_CORNERS, PATTERN, PLACING_IN,
    QUESTION, RECORD_IN, ROOMS_IN, SLACK, TIDY, TRACE, TREE,
};
use case::Case;
use counts::{plan_count, plan_total};
use groups::PAIRS;
use lists::LISTS;
use names::NAMES;
use reference::cases::Random;
use reference::Refusal;
use room_list::RoomList;
use shapes::{Shape, SHAPES};
use sizes::{PLACINGS, SIZED_PLANS};
use texts::{Kind, BROKEN_AT_THE_END, MANY_HANDS, TIDY_FORM, TOO_MANY_NUMBERS};
use timing::{calls_in_a_round, one_turn, Times, ROUNDS};
use traces::TRACES;

/// The calls.
const EVERY_CALL: [Call; 13] = [
    LABELS_IN,
    RECORD_IN,
    ROOMS_IN,
    QUESTION,
    TIDY,
    TREE,
    PATTERN,
    BOOK_NEXT,
    LOWEST_CORNERS,
    SLACK,
    PLACING_IN,
    GROUPS,
    TRACE,
];

/// Counts of rooms for the time of a call.
const CALLS: [usize; 3] = [5, 40, 255];

/// Counts of rooms for the time per room.
const ROOMS: [usize; 4] = [32, 64, 128, 255];

/// Counts of labels for texts that are accepted.
const LABELS_OF_TEXTS: [usize; 2] = [40, 255];

/// So many numbers that a text of them is longer than any that is read.
const NUMBERS_OF_LONG_TEXTS: usize = 1300;

/// The count of labels for lists with and without a pattern.
const LABELS_OF_LISTS: usize = 255;

/// The count of rooms for plans with sizes and for placings.
const ROOMS_WITH_SIZES: u8 = 255;

/// Different books of each kind.
const FULL_BOOKS: usize = 4;

/// Different plans for each count of rooms.
const PLANS: usize = 512;

/// What a search writes in one sitting: records, and rooms of the plan.
const RECORDS: usize = 100_000;
const ROOMS_OF_A_SEARCH: usize = 40;

fn main() {
    println!("{PLANS} random plans for each n, quickest of {ROUNDS} rounds");

    print_calls("nanoseconds per call");

    print_places("nanoseconds per call of Book next, by the form");

    print_books("nanoseconds per call of Book add, by the book");

    print_names("nanoseconds per call of Rooms in, by the names");

    print_refused("nanoseconds per call of Rooms in, refused");

    print_texts("nanoseconds per call of Tidy, by the text");

    print_shapes("nanoseconds per call of Tree, by the plan");

    print_lists("nanoseconds per call of Pattern, by the list");

    print_sized_plans("nanoseconds per call with sizes, by the plan");

    print_placings("nanoseconds per call of Placing in, by the placing");

    print_groups("nanoseconds per call of Groups, by the groups");

    print_traces("nanoseconds per move of Trace, by the trace of n moves");

    print_counts("nanoseconds per call of Plan count and Plan total");

    print_rooms("nanoseconds per room");

    print_search(&format!(
        "milliseconds for {RECORDS} records of a {ROOMS_OF_A_SEARCH}-room plan"
    ));
}

/// Random plans of `n` rooms. Both versions of each call accept them.
fn cases(n: usize) -> Vec<Case> {
    let mut random = Random::from_seed(n as u64);
    let cases: Vec<Case> = (0..PLANS).map(|_| Case::random(n, &mut random)).collect();
    cases.iter().for_each(Case::check);
    cases
}

/// Random lists of `n` rooms. Both versions of Rooms in refuse them so.
fn refused_lists(refusal: Refusal, n: usize) -> Vec<RoomList> {
    let mut random = Random::from_seed(n as u64);
    let lists = (0..PLANS).map(|_| RoomList::refused(n, refusal, &mut random));
    let lists: Vec<RoomList> = lists.collect();
    for list in &lists {
        assert_eq!(list.answer().err(), Some(refusal), "{:?}", list.rooms);
    }
    lists
}

fn print_head(title: &str) {
    println!("\n{title}");
    print!("{:<14} {:>5} {:>10}", "", "n", "library");
    print!(" {:>12} {:>6}", "sheet", "ratio");
    println!(" {:>10} {:>6}", "tuned", "ratio");
}

/// Prints the times of a call, taken over so many calls in a round and in the
/// unit of which a nanosecond per call is `worth` many.
fn print_row(call: Call, cases: &[Case], calls: usize, worth: f64) {
    let sheet = (call.sheet)(cases);
    let times = (call.times)(cases, calls);
    print_times(call.name, cases[0].labels.len(), sheet, &times, worth);
}

/// Prints times in the unit of which a nanosecond is `worth` many, and the
/// ratios of the library to each of the two Rust versions.
fn print_times(name: &str, n: usize, sheet: f64, times: &Times, worth: f64) {
    print!("{name:<14} {n:>5} {:>10.2}", times.library * worth);
    print!(" {:>12.2} {:>6.3}", sheet * worth, times.library / sheet);
    println!(" {:>10.2} {:>6.2}", times.tuned * worth, times.ratio());
}

/// Prints the times of each call.
fn print_calls(title: &str) {
    print_head(title);
    for call in EVERY_CALL {
        for n in CALLS {
            let cases = cases(n);
            print_row(call, &cases, calls_in_a_round(&cases, n), 1.0);
        }
    }
}

/// Prints the times per room of the calls that take or give a whole plan.
fn print_rooms(title: &str) {
    print_head(title);
    for call in [LABELS_IN, RECORD_IN, ROOMS_IN] {
        for n in ROOMS {
            let cases = cases(n);
            print_row(call, &cases, calls_in_a_round(&cases, n), 1.0 / n as f64);
        }
    }
}

/// Prints the times of these calls for what a search writes.
fn print_search(title: &str) {
    print_head(title);
    let cases = cases(ROOMS_OF_A_SEARCH);
    for call in [LABELS_IN, RECORD_IN, ROOMS_IN] {
        print_row(call, &cases, RECORDS, RECORDS as f64 / 1e6);
    }
}

/// Prints the times for places in books, and the ratios of the library to the
/// tuned Rust version and to the one that goes triple by triple.
fn print_places(title: &str) {
    println!("\n{title}");
    print!("{:<9} {:>5} {:>10}", "", "n", "library");
    print!(" {:>10} {:>6}", "tuned", "ratio");
    println!(" {:>10} {:>6}", "by triples", "ratio");
    for n in CALLS {
        let cases = cases(n);
        let (times, by_triples) = book_next(&cases, calls_in_a_round(&cases, n));
        print!("{:<9} {n:>5} {:>10.2}", BOOK_NEXT.name, times.library);
        print!(" {:>10.2} {:>6.2}", times.tuned, times.ratio());
        let ratio = times.library / by_triples;
        println!(" {by_triples:>10.2} {ratio:>6.2}");
    }
}

/// Prints the times for full books of each kind, with the number of their
/// records, and the ratios of the library to each of the three Rust versions.
fn print_books(title: &str) {
    println!("\n{title}");
    print!("{:<12} {:>7} {:>10}", "", "records", "library");
    print!(" {:>12} {:>6}", "sheet", "ratio");
    print!(" {:>10} {:>6}", "tuned", "ratio");
    println!(" {:>10} {:>6}", "by triples", "ratio");
    for kind in BOOKS {
        let books = kind.books(FULL_BOOKS);
        let rooms = books[0].summary.rooms as usize;
        let (sheet, times, by_triples) = book_add(&books, calls_in_a_round(&books, rooms));
        let (name, records, library) = (kind.name, kind.records, times.library);
        print!("{name:<12} {records:>7} {library:>10.0}");
        print!(" {sheet:>12.0} {:>6.3}", library / sheet);
        print!(" {:>10.0} {:>6.2}", times.tuned, times.ratio());
        println!(" {by_triples:>10.0} {:>6.2}", library / by_triples);
    }
}

/// Prints the times for lists with names of each kind.
fn print_names(title: &str) {
    print_rooms_head(title);
    for kind in NAMES {
        for n in CALLS {
            print_rooms_row(kind.name, n, &kind.lists(PLANS, n));
        }
    }
}

/// Prints the times for lists with each refusal.
fn print_refused(title: &str) {
    print_rooms_head(title);
    // All but 1, which only the length of the list decides.
    for &refusal in &Refusal::OF_ROOMS[1..] {
        let name = format!("refused {}", refusal.number());
        for n in CALLS {
            print_rooms_row(&name, n, &refused_lists(refusal, n));
        }
    }
}

fn print_rooms_head(title: &str) {
    println!("\n{title}");
    print!("{:<10} {:>4} {:>10}", "", "n", "library");
    println!(" {:>10} {:>6}", "tuned", "ratio");
}

/// Prints the times for lists of `n` rooms, and the ratio of the library to the
/// tuned Rust version.
fn print_rooms_row(name: &str, n: usize, lists: &[RoomList]) {
    let times = rooms_in(lists, calls_in_a_round(lists, n), |list| list);
    print!("{name:<10} {n:>4} {:>10.2}", times.library);
    println!(" {:>10.2} {:>6.2}", times.tuned, times.ratio());
}

/// Prints the times for texts of each kind.
fn print_texts(title: &str) {
    println!("\n{title}");
    print!("{:<10} {:>5} {:>10}", "", "bytes", "library");
    println!(" {:>10} {:>6}", "tuned", "ratio");
    for kind in [TIDY_FORM, MANY_HANDS] {
        for n in LABELS_OF_TEXTS {
            print_texts_row(&kind, n);
        }
    }
    for kind in [BROKEN_AT_THE_END, TOO_MANY_NUMBERS] {
        print_texts_row(&kind, NUMBERS_OF_LONG_TEXTS);
    }
}

/// Prints the times for texts of a kind, with their mean length, and the ratio
/// of the library to the tuned Rust version.
fn print_texts_row(kind: &Kind, n: usize) {
    let texts = kind.texts(PLANS, n);
    let times = tidy(&texts, calls_in_a_round(&texts, n), |text| text);
    let bytes = texts.iter().map(Vec::len).sum::<usize>() / texts.len();
    print!("{:<10} {bytes:>5} {:>10.2}", kind.name, times.library);
    println!(" {:>10.2} {:>6.2}", times.tuned, times.ratio());
}

/// Prints the times for plans of each shape.
fn print_shapes(title: &str) {
    println!("\n{title}");
    print!("{:<11} {:>4} {:>10}", "", "n", "library");
    print!(" {:>10} {:>6}", "tuned", "ratio");
    println!(" {:>12} {:>6}", "by intervals", "ratio");
    for shape in SHAPES {
        for &n in shape.rooms {
            print_shapes_row(&shape, n);
        }
    }
}

/// Prints the times for plans of a shape, and the ratios of the library to the
/// tuned Rust version and to the one that has the library's form.
fn print_shapes_row(shape: &Shape, n: usize) {
    let records = shape.records(PLANS, n);
    let (times, by_intervals) = tree(&records, calls_in_a_round(&records, n));
    print!("{:<11} {n:>4} {:>10.2}", shape.name, times.library);
    print!(" {:>10.2} {:>6.2}", times.tuned, times.ratio());
    let ratio = times.library / by_intervals;
    println!(" {by_intervals:>12.2} {ratio:>6.2}");
}

/// Prints the times for label lists of each kind, and the ratio of the library
/// to the tuned Rust version.
fn print_lists(title: &str) {
    println!("\n{title}");
    print!("{:<14} {:>4} {:>10}", "", "n", "library");
    println!(" {:>10} {:>6}", "tuned", "ratio");
    let n = LABELS_OF_LISTS;
    for kind in LISTS {
        let lists = kind.lists(PLANS, n);
        let times = pattern(&lists, calls_in_a_round(&lists, n), |labels| labels);
        print!("{:<14} {n:>4} {:>10.2}", kind.name, times.library);
        println!(" {:>10.2} {:>6.2}", times.tuned, times.ratio());
    }
}

/// Prints the times of each call with sizes, for plans of each kind.
fn print_sized_plans(title: &str) {
    print_sizes_head(title);
    let n = ROOMS_WITH_SIZES;
    for kind in SIZED_PLANS {
        let plans = kind.plans(PLANS, n);
        let calls = calls_in_a_round(&plans, n.into());
        for (call, times) in [
            (LOWEST_CORNERS, lowest_corners(&plans, calls, |plan| plan)),
            (SLACK, slack(&plans, calls, |plan| plan)),
            (PLACING_IN, placing_in(&plans, calls, |plan| plan)),
        ] {
            print_sizes_row(&format!("{}, {}", call.name, kind.name), &times);
        }
    }
}

/// Prints the times for placings of each kind.
fn print_placings(title: &str) {
    print_sizes_head(title);
    let n = ROOMS_WITH_SIZES;
    for kind in PLACINGS {
        let plans = kind.plans(PLANS, n);
        let times = placing_in(&plans, calls_in_a_round(&plans, n.into()), |plan| plan);
        print_sizes_row(kind.name, &times);
    }
}

fn print_sizes_head(title: &str) {
    println!("\n{title}");
    print!("{:<26} {:>4} {:>10}", "", "n", "library");
    println!(" {:>10} {:>6}", "tuned", "ratio");
}

/// Prints times, and the ratio of the library to the tuned Rust version.
fn print_sizes_row(name: &str, times: &Times) {
    print!("{name:<26} {ROOMS_WITH_SIZES:>4} {:>10.2}", times.library);
    println!(" {:>10.2} {:>6.2}", times.tuned, times.ratio());
}

/// Prints the times for pairs of groups of each kind.
fn print_groups(title: &str) {
    print_head(title);
    for kind in PAIRS {
        for n in CALLS {
            let plans = kind.plans(PLANS, n);
            let sheet = one_turn(&plans, |plan| plan.by(reference::groups));
            let times = groups(&plans, calls_in_a_round(&plans, n), |plan| plan);
            print_times(kind.name, n, sheet, &times, 1.0);
        }
    }
}

/// Prints the times per move for traces of each kind.
fn print_traces(title: &str) {
    print_head(title);
    for kind in TRACES {
        let (traces, moves) = kind.traces();
        let sheet = trace_by_sheet(&traces, |bytes| bytes);
        let times = trace(&traces, calls_in_a_round(&traces, moves), |bytes| bytes);
        print_times(kind.name, moves, sheet, &times, 1.0 / moves as f64);
    }
}

/// Prints the times for numbers of plans.
fn print_counts(title: &str) {
    print_head(title);
    for n in counts::ROOMS {
        let (sheet, times) = plan_count(n);
        print_times("Plan count", n.into(), sheet, &times, 1.0);
    }
    for n in counts::ROOMS {
        let (sheet, times) = plan_total(n);
        print_times("Plan total", n.into(), sheet, &times, 1.0);
    }
}
