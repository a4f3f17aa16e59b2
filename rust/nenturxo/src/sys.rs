//! The C interface, and the only unsafe code: one safe function for each call.

use crate::{Room, Slack, Summary};

/// What a call gives back: at least 0 a result, below 0 a refusal's number
/// negated.
pub type Code = i32;

/// The same, where a result is too large for 32 bits.
pub type LongCode = i64;

mod c {
    use super::{Code, LongCode, Room};

    extern "C" {
        pub fn nenturxo_labels_in(
            labels: *const u8,
            n: usize,
            record: *mut u8,
            capacity: usize,
        ) -> Code;

        pub fn nenturxo_record_in(
            record: *const u8,
            n: usize,
            labels: *mut u8,
            labels_capacity: usize,
            rooms: *mut Room,
            rooms_capacity: usize,
        ) -> Code;

        pub fn nenturxo_question(record: *const u8, n: usize, first: u8, second: u8) -> Code;

        pub fn nenturxo_rooms_in(
            rooms: *const Room,
            n: usize,
            record: *mut u8,
            record_capacity: usize,
            labels: *mut u8,
            labels_capacity: usize,
            positions: *mut u8,
            positions_capacity: usize,
            names: *mut u16,
            names_capacity: usize,
        ) -> Code;

        pub fn nenturxo_tidy(text: *const u8, n: usize, tidy: *mut u8, capacity: usize) -> Code;

        pub fn nenturxo_tree(record: *const u8, n: usize, tree: *mut u8, capacity: usize) -> Code;

        pub fn nenturxo_pattern(labels: *const u8, n: usize) -> LongCode;

        pub fn nenturxo_book_next(book: *const u8, lent: usize, used: usize, place: usize) -> Code;

        pub fn nenturxo_book_add(
            book: *mut u8,
            lent: usize,
            used: usize,
            record: *const u8,
            length: usize,
            plans: *mut u32,
            rooms: *mut u32,
            rises: *mut u32,
            falls: *mut u32,
        ) -> Code;

        pub fn nenturxo_lowest_corners(
            record: *const u8,
            n: usize,
            widths: *const u16,
            widths_length: usize,
            heights: *const u16,
            heights_length: usize,
            x: *mut u32,
            x_capacity: usize,
            y: *mut u32,
            y_capacity: usize,
        ) -> Code;

        pub fn nenturxo_slack(
            record: *const u8,
            n: usize,
            widths: *const u16,
            widths_length: usize,
            heights: *const u16,
            heights_length: usize,
            outline_width: u32,
            outline_height: u32,
            across: *mut i64,
            up: *mut i64,
        ) -> Code;

        pub fn nenturxo_placing_in(
            record: *const u8,
            n: usize,
            widths: *const u16,
            widths_length: usize,
            heights: *const u16,
            heights_length: usize,
            x: *const u32,
            x_length: usize,
            y: *const u32,
            y_length: usize,
        ) -> Code;

        pub fn nenturxo_groups(
            record: *const u8,
            n: usize,
            first: *const u8,
            second: *const u8,
        ) -> Code;

        pub fn nenturxo_trace(
            trace: *const u8,
            n: usize,
            states: *mut u16,
            capacity: usize,
        ) -> LongCode;

        pub fn nenturxo_plan_count(n: u8, rises: u8) -> LongCode;

        pub fn nenturxo_plan_total(n: u8) -> LongCode;
    }
}

/// `nenturxo_labels_in` on two slices.
pub fn labels_in(labels: &[u8], record: &mut [u8]) -> Code {
    // SAFETY: both pointers are good for as many bytes as the lengths beside
    // them say, the second one for writing too, and as one of the two slices
    // is borrowed mutably they do not overlap. The call keeps no pointer.
    unsafe {
        c::nenturxo_labels_in(
            labels.as_ptr(),
            labels.len(),
            record.as_mut_ptr(),
            record.len(),
        )
    }
}

/// `nenturxo_record_in` on three slices.
pub fn record_in(record: &[u8], labels: &mut [u8], rooms: &mut [Room]) -> Code {
    // SAFETY: a `Room` is laid out as the C interface says, five unsigned
    // 16-bit numbers in this order, and any five are one. Every pointer is
    // good for as many elements as the length beside it says, all but the
    // first for writing too, and as all slices but the first are borrowed
    // mutably no two overlap. The call keeps no pointer.
    unsafe {
        c::nenturxo_record_in(
            record.as_ptr(),
            record.len(),
            labels.as_mut_ptr(),
            labels.len(),
            rooms.as_mut_ptr(),
            rooms.len(),
        )
    }
}

/// `nenturxo_question` on a slice and two positions.
pub fn question(record: &[u8], first: u8, second: u8) -> Code {
    // SAFETY: the pointer is good for as many bytes as the length beside it
    // says. The call keeps no pointer.
    unsafe { c::nenturxo_question(record.as_ptr(), record.len(), first, second) }
}

/// `nenturxo_rooms_in` on five slices.
pub fn rooms_in(
    rooms: &[Room],
    record: &mut [u8],
    labels: &mut [u8],
    positions: &mut [u8],
    names: &mut [u16],
) -> Code {
    // SAFETY: a `Room` is laid out as the C interface says, five unsigned
    // 16-bit numbers in this order. Every pointer is good for as many elements
    // as the length beside it says, all but the first for writing too, and as
    // all slices but the first are borrowed mutably no two overlap. The call
    // keeps no pointer.
    unsafe {
        c::nenturxo_rooms_in(
            rooms.as_ptr(),
            rooms.len(),
            record.as_mut_ptr(),
            record.len(),
            labels.as_mut_ptr(),
            labels.len(),
            positions.as_mut_ptr(),
            positions.len(),
            names.as_mut_ptr(),
            names.len(),
        )
    }
}

/// `nenturxo_tidy` on two slices.
pub fn tidy(text: &[u8], tidy: &mut [u8]) -> Code {
    // SAFETY: both pointers are good for as many bytes as the lengths beside
    // them say, the second one for writing too, and as one of the two slices
    // is borrowed mutably they do not overlap. The call keeps no pointer.
    unsafe { c::nenturxo_tidy(text.as_ptr(), text.len(), tidy.as_mut_ptr(), tidy.len()) }
}

/// `nenturxo_tree` on two slices.
pub fn tree(record: &[u8], tree: &mut [u8]) -> Code {
    // SAFETY: both pointers are good for as many bytes as the lengths beside
    // them say, the second one for writing too, and as one of the two slices
    // is borrowed mutably they do not overlap. The call keeps no pointer.
    unsafe { c::nenturxo_tree(record.as_ptr(), record.len(), tree.as_mut_ptr(), tree.len()) }
}

/// `nenturxo_pattern` on a slice.
pub fn pattern(labels: &[u8]) -> LongCode {
    // SAFETY: the pointer is good for as many bytes as the length beside it
    // says. The call keeps no pointer.
    unsafe { c::nenturxo_pattern(labels.as_ptr(), labels.len()) }
}

/// `nenturxo_book_next` on a slice and two lengths.
pub fn book_next(book: &[u8], used: usize, place: usize) -> Code {
    // SAFETY: the pointer is good for as many bytes as the length beside it
    // says. The call keeps no pointer.
    unsafe { c::nenturxo_book_next(book.as_ptr(), book.len(), used, place) }
}

/// `nenturxo_book_add` on two slices, a length and four totals.
pub fn book_add(book: &mut [u8], used: usize, record: &[u8], summary: &mut Summary) -> Code {
    let Summary {
        plans,
        rooms,
        rises,
        falls,
    } = summary;
    // SAFETY: both slices' pointers are good for as many bytes as the lengths
    // beside them say, the first one for writing too, and the others for one
    // total each. As all but the second are borrowed mutably, and each total is
    // a field of its own, no two overlap. The call keeps no pointer.
    unsafe {
        c::nenturxo_book_add(
            book.as_mut_ptr(),
            book.len(),
            used,
            record.as_ptr(),
            record.len(),
            plans,
            rooms,
            rises,
            falls,
        )
    }
}

/// `nenturxo_lowest_corners` on five slices.
pub fn lowest_corners(
    record: &[u8],
    widths: &[u16],
    heights: &[u16],
    x: &mut [u32],
    y: &mut [u32],
) -> Code {
    // SAFETY: every pointer is good for as many elements as the length beside
    // it says, the last two for writing too, and as the last two slices are
    // borrowed mutably neither overlaps another one. The call keeps no pointer.
    unsafe {
        c::nenturxo_lowest_corners(
            record.as_ptr(),
            record.len(),
            widths.as_ptr(),
            widths.len(),
            heights.as_ptr(),
            heights.len(),
            x.as_mut_ptr(),
            x.len(),
            y.as_mut_ptr(),
            y.len(),
        )
    }
}

/// `nenturxo_slack` on three slices and the two numbers of an outline.
pub fn slack(
    record: &[u8],
    widths: &[u16],
    heights: &[u16],
    [outline_width, outline_height]: [u32; 2],
    slack: &mut Slack,
) -> Code {
    let Slack { across, up } = slack;
    // SAFETY: the slices' pointers are good for as many elements as the lengths
    // beside them say, and the last two for one number each. As these two are
    // borrowed mutably, and each is a field of its own, neither overlaps
    // anything else. The call keeps no pointer.
    unsafe {
        c::nenturxo_slack(
            record.as_ptr(),
            record.len(),
            widths.as_ptr(),
            widths.len(),
            heights.as_ptr(),
            heights.len(),
            outline_width,
            outline_height,
            across,
            up,
        )
    }
}

/// `nenturxo_placing_in` on five slices.
pub fn placing_in(record: &[u8], widths: &[u16], heights: &[u16], x: &[u32], y: &[u32]) -> Code {
    // SAFETY: every pointer is good for as many elements as the length beside
    // it says. The call keeps no pointer.
    unsafe {
        c::nenturxo_placing_in(
            record.as_ptr(),
            record.len(),
            widths.as_ptr(),
            widths.len(),
            heights.as_ptr(),
            heights.len(),
            x.as_ptr(),
            x.len(),
            y.as_ptr(),
            y.len(),
        )
    }
}

/// `nenturxo_groups` on a slice and two groups.
pub fn groups(record: &[u8], first: &[u8; 32], second: &[u8; 32]) -> Code {
    // SAFETY: the first pointer is good for as many bytes as the length beside
    // it says, and each of the others for the 32 bytes of a group. The call
    // keeps no pointer.
    unsafe {
        c::nenturxo_groups(
            record.as_ptr(),
            record.len(),
            first.as_ptr(),
            second.as_ptr(),
        )
    }
}

/// `nenturxo_trace` on two slices.
pub fn trace(trace: &[u8], states: &mut [u16]) -> LongCode {
    // SAFETY: both pointers are good for as many elements as the lengths beside
    // them say, the second one for writing too, and as one of the two slices is
    // borrowed mutably they do not overlap. The call keeps no pointer.
    unsafe {
        c::nenturxo_trace(
            trace.as_ptr(),
            trace.len(),
            states.as_mut_ptr(),
            states.len(),
        )
    }
}

/// `nenturxo_plan_count` on two numbers.
pub fn plan_count(n: u8, rises: u8) -> LongCode {
    // SAFETY: no pointer is handed over, and any two numbers may be.
    unsafe { c::nenturxo_plan_count(n, rises) }
}

/// `nenturxo_plan_total` on a number.
pub fn plan_total(n: u8) -> LongCode {
    // SAFETY: no pointer is handed over, and any number may be.
    unsafe { c::nenturxo_plan_total(n) }
}
