//! What the sheet, 000 and 001 print.

use super::names::named;
use super::rooms;
use crate::{Refusal, Room, Triple};

/// The label lists among the sheet's worked plans that are accepted, with their
/// records.
pub const LISTS: [(&[u8], &[u8]); 8] = [
    (&[1], &[0x01]),
    (&[1, 2], &[0x02, 0x40]),
    (&[2, 1], &[0x02, 0xa0]),
    (&[3, 4, 1, 2], &[0x04, 0x47, 0x00]),
    (&[4, 1, 3, 5, 2], &[0x05, 0x31, 0x70]),
    // 000, Figure 5: what Algorithm BP2FP is applied to.
    (&[4, 1, 3, 6, 5, 2], &[0x06, 0x30, 0x7e]),
    // 000, Figure 3: what Algorithm FP2BP gives for the floorplan there.
    (&[5, 2, 1, 4, 6, 3], &[0x06, 0x36, 0x2e]),
    // 001, Figure 8 (FP2BP), Figure 9 (BP2FP) and the example of Definition 9.
    (&[2, 7, 3, 1, 5, 6, 4], &[0x07, 0x0e, 0x8d, 0xc0]),
];

/// The label lists that the sheet refuses: "the only two non-Baxter
/// permutations" of 4 labels (000, section 2.1).
pub const BARRED: [&[u8]; 2] = [&[2, 4, 1, 3], &[3, 1, 4, 2]];

/// 000, text with Figure 8: what 2413 "is converted to", and its record.
pub const CONVERTED: (&[u8], &[u8]) = (&[2, 5, 3, 1, 4], &[0x05, 0b0000_1110, 0b1110_0000]);

/// The records that the sheet prints with a refusal.
pub const REFUSED_RECORDS: [(&[u8], Refusal); 6] = [
    (&[0x02, 0x00], Refusal::RunsLeft),
    (&[0x02, 0x60], Refusal::RunMissing),
    (&[0x02, 0xc1], Refusal::SpareBit),
    (&[0x02], Refusal::BodyShort),
    (&[0x01, 0x00], Refusal::BytesAfter),
    (&[0x00], Refusal::NoKind),
];

/// The record of the plan that the sheet lists.
pub const LISTED: [u8; 3] = [0x05, 0x31, 0x70];

/// What the sheet prints for it.
pub const LISTING: &str = "rooms 5\n\
                           1 4 0 0 3 1\n\
                           2 1 0 1 2 5\n\
                           3 3 2 1 3 4\n\
                           4 5 3 0 5 4\n\
                           5 2 2 4 5 5\n";

/// Its rooms in the grid drawing, by position: a pinwheel.
pub const DRAWING: [[u16; 4]; 5] = [
    [0, 0, 3, 1],
    [0, 1, 2, 5],
    [2, 1, 3, 4],
    [3, 0, 5, 4],
    [2, 4, 5, 5],
];

/// The trap of a far room with smaller x: the first room is left of the last
/// one by x, yet the bar between them makes it below. By position, each with
/// its label.
pub const FAR_ROOM: [([u16; 4], u8); 5] = [
    ([0, 0, 1, 1], 4),
    ([1, 0, 4, 1], 5),
    ([0, 1, 4, 2], 3),
    ([0, 2, 3, 3], 1),
    ([3, 2, 4, 3], 2),
];

/// The code printed with Figure 7 of 001, whose floorplan is the one of its
/// Figures 8 and 9.
///
/// # Panics
///
/// Never: each of its groups has three digits.
#[must_use]
pub fn code_of_figure_7() -> Vec<Triple> {
    "000 011 101 000 110 111"
        .split(' ')
        .map(|group| [0, 1, 2].map(|bit| group.as_bytes()[bit] == b'1'))
        .collect()
}

/// A short room list for each cause of its refusal, two for the first one.
/// Those with a gap and with four squares are in the sheet.
#[must_use]
pub fn refused_rooms() -> [(Vec<Room>, Refusal); 7] {
    let unit = [0, 0, 1, 1];
    let squares = [unit, [1, 0, 2, 1], [0, 1, 1, 2], [1, 1, 2, 2]];
    [
        (Vec::new(), Refusal::ListLength),
        (rooms(&[unit; 256]), Refusal::ListLength),
        (rooms(&[unit, [1, 0, 1, 1]]), Refusal::EmptyRoom),
        (rooms(&[unit, unit]), Refusal::SharedSquare),
        (rooms(&[unit, [2, 0, 3, 1]]), Refusal::OpenSquare),
        (rooms(&squares), Refusal::FourRoomsMeet),
        (named(&rooms(&squares[..2]), &[9, 9]), Refusal::NameTwice),
    ]
}
