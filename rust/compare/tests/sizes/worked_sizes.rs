//! Corners, needed lengths and placings that are worked by hand from the
//! relations of the sheet's plans.

use compare::Tally;
use reference::cases::sizes::{Placing, SizedRecord};
use reference::cases::worked::{CONVERTED, LISTED};
use reference::Refusal;

/// A plan with sizes, its lowest corners and what it needs across and up.
struct Worked {
    record: &'static [u8],
    widths: &'static [u16],
    heights: &'static [u16],
    x: &'static [u32],
    y: &'static [u32],
    needed: [u32; 2],
}

impl Worked {
    fn sized(&self) -> SizedRecord {
        SizedRecord::new(self.record, self.widths, self.heights)
    }

    fn lowest(&self) -> Placing {
        Placing {
            x: self.x.to_vec(),
            y: self.y.to_vec(),
        }
    }
}

/// The plans, of which the relations of all pairs are in
/// `reference::cases::asked`.
const PLANS: [Worked; 9] = [
    Worked {
        record: &[0x01],
        widths: &[7],
        heights: &[65_535],
        x: &[0],
        y: &[0],
        needed: [7, 65_535],
    },
    // Side by side, and one on another.
    Worked {
        record: &[0x02, 0x40],
        widths: &[3, 4],
        heights: &[5, 6],
        x: &[0, 3],
        y: &[0, 0],
        needed: [7, 6],
    },
    Worked {
        record: &[0x02, 0xa0],
        widths: &[3, 4],
        heights: &[5, 6],
        x: &[0, 0],
        y: &[0, 5],
        needed: [4, 11],
    },
    // Two rows of two: 3 4 1 2. The upper row begins where the higher one of the
    // lower two ends, and has a line of its own across.
    Worked {
        record: &[0x04, 0x47, 0x00],
        widths: &[5, 1, 2, 9],
        heights: &[4, 6, 1, 1],
        x: &[0, 5, 0, 2],
        y: &[0, 0, 6, 6],
        needed: [11, 7],
    },
    // The pinwheel of the sheet: 4 1 3 5 2.
    Worked {
        record: &LISTED,
        widths: &[10, 2, 3, 4, 1],
        heights: &[5, 1, 6, 20, 2],
        x: &[0, 0, 2, 10, 2],
        y: &[0, 5, 5, 0, 20],
        needed: [14, 22],
    },
    Worked {
        record: &LISTED,
        widths: &[1, 9, 9, 1, 65_535],
        heights: &[1, 65_535, 65_535, 1, 1],
        x: &[0, 0, 9, 18, 9],
        y: &[0, 1, 1, 0, 65_536],
        needed: [65_544, 65_537],
    },
    // The other one: 2 5 3 1 4.
    Worked {
        record: CONVERTED.1,
        widths: &[2, 9, 4, 8, 1],
        heights: &[3, 5, 2, 6, 7],
        x: &[0, 2, 2, 0, 8],
        y: &[0, 0, 5, 7, 5],
        needed: [11, 13],
    },
    // A bar between two pairs: 4 5 3 1 2. However wide 1 is, 5 begins where 4
    // ends.
    Worked {
        record: &[0x05, 0x54, 0xe0],
        widths: &[100, 1, 2, 3, 4],
        heights: &[1, 50, 2, 7, 9],
        x: &[0, 100, 0, 0, 3],
        y: &[0, 0, 50, 52, 52],
        needed: [101, 61],
    },
    // That of 001: 2 7 3 1 5 6 4.
    Worked {
        record: &[0x07, 0x0e, 0x8d, 0xc0],
        widths: &[1, 2, 3, 4, 5, 6, 7],
        heights: &[7, 6, 5, 4, 3, 2, 1],
        x: &[0, 1, 1, 0, 4, 9, 4],
        y: &[0, 0, 6, 11, 6, 6, 9],
        needed: [15, 15],
    },
];

#[test]
fn corners_and_slacks_by_hand() {
    let mut tally = Tally::new("corners and slacks by hand");
    for plan in PLANS {
        let (sized, lowest) = (plan.sized(), plan.lowest());
        assert_eq!(tally.expect_corners(&sized), lowest);
        tally.expect_needed(&sized, plan.needed);
        tally.expect_placing(&sized, &lowest, Ok(()));
    }
    tally.expect_refused([Refusal::SliceShort], [9]);
    tally.finish(9 * (3 + 5 + 1));
}

/// No room of these plans can begin lower by 1, if it does not begin at 0.
#[test]
fn corners_lower_by_1() {
    let mut tally = Tally::new("corners by hand, one lower by 1");
    let broken = Err(Refusal::RelationBroken);
    for plan in PLANS {
        let (sized, lowest) = (plan.sized(), plan.lowest());
        for room in 0..sized.widths.len() {
            if lowest.x[room] > 0 {
                let mut lower = lowest.clone();
                lower.x[room] -= 1;
                tally.expect_placing(&sized, &lower, broken);
            }
            if lowest.y[room] > 0 {
                let mut lower = lowest.clone();
                lower.y[room] -= 1;
                tally.expect_placing(&sized, &lower, broken);
            }
        }
    }
    tally.expect_refused([Refusal::RelationBroken], [tally.cases()]);
    tally.finish(30);
}

/// Where the first of two rooms starts and how large it is, where the second one
/// starts, and whether the first one ends no later.
const PAIRS: [([u32; 2], u32, bool); 24] = [
    ([0, 1], 1, true),
    ([0, 1], 0, false),
    ([0, 65_535], 65_535, true),
    ([0, 65_535], 65_534, false),
    ([7, 3], 10, true),
    ([7, 3], 9, false),
    ([7, 3], 0, false),
    ([1, 65_535], 65_536, true),
    ([1, 65_535], 65_535, false),
    ([0x7fff_ffff, 1], 0x8000_0000, true),
    ([0x7fff_ffff, 1], 0x7fff_ffff, false),
    ([0x7fff_ffff, 65_535], u32::MAX, true),
    ([0, 1], u32::MAX, true),
    ([u32::MAX - 1, 1], u32::MAX, true),
    ([u32::MAX - 65_535, 65_535], u32::MAX, true),
    ([u32::MAX - 65_534, 65_535], u32::MAX, false),
    // Whole-number sums of 2^32 and more: no room begins so far.
    ([u32::MAX, 1], u32::MAX, false),
    ([u32::MAX, 1], 0, false),
    ([u32::MAX, 1], 1, false),
    ([u32::MAX, 65_535], 65_534, false),
    ([u32::MAX, 65_535], 65_535, false),
    ([u32::MAX, 65_535], u32::MAX, false),
    ([u32::MAX - 65_534, 65_535], 0, false),
    ([u32::MAX - 5, 7], 1, false),
];

/// The other way, and past the second room, all is free.
#[test]
fn two_rooms_that_touch_miss_by_1_or_end_beyond_all_numbers() {
    let mut tally = Tally::new("placings of two rooms by hand");
    for ([first, size], second, is_honoured) in PAIRS {
        let expected = is_honoured.then_some(()).ok_or(Refusal::RelationBroken);
        let size = u16::try_from(size).expect("a size");
        let starts = vec![first, second];
        for other in [[0, 0], [u32::MAX, 0], [0, u32::MAX], [u32::MAX; 2]] {
            let row = SizedRecord::new([0x02, 0x40], [size, 65_535], [65_535; 2]);
            let (x, y) = (starts.clone(), other.to_vec());
            tally.expect_placing(&row, &Placing { x, y }, expected);
            let pile = SizedRecord::new([0x02, 0xa0], [65_535; 2], [size, 65_535]);
            let (x, y) = (other.to_vec(), starts.clone());
            tally.expect_placing(&pile, &Placing { x, y }, expected);
        }
    }
    assert_eq!(tally.accepted(), 8 * 9);
    tally.finish(8 * 24);
}
