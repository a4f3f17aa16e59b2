//! Outlines of every size that matters: "the slack each way is the outline less
//! the needed length ... and may be negative".

use crate::help::furthest_ends;
use compare::Tally;
use reference::cases::sizes::SizedRecord;
use reference::cases::walk::{list_in_turn, some_count, Walked};
use reference::cases::Random;

/// Any number of 32 bits.
fn some_number(random: &mut Random) -> u32 {
    u32::from_be_bytes([(); 4].map(|()| random.byte()))
}

/// The slack is 0 at the needed outline, −1 where it is 1 smaller, and so on to
/// the smallest and the largest outline.
#[test]
fn outlines_near_the_needed_one_the_smallest_and_the_largest() {
    const PLANS: usize = 1_500;
    let name = "outlines near the needed one and at the ends";
    let tally = Tally::of_rounds(name, 531, 0..PLANS, |tally, random, round| {
        let n = some_count(random);
        let sized = SizedRecord::some(&list_in_turn(n, round, random), random);
        let lowest = tally.expect_corners(&sized);
        tally.expect_needed(&sized, furthest_ends(&sized, &lowest));
    });
    tally.finish(PLANS * (3 + 5));
}

#[test]
fn any_outlines() {
    const PLANS: usize = 400;
    const OUTLINES: usize = 6;
    let name = "any outlines";
    let mut below = [0; 2];
    let tally = Tally::of_rounds(name, 532, 0..PLANS, |tally, random, round| {
        let n = some_count(random);
        let sized = SizedRecord::some(&list_in_turn(n, round, random), random);
        let lowest = tally.expect_corners(&sized);
        let needed = furthest_ends(&sized, &lowest).map(i64::from);
        for _ in 0..OUTLINES {
            // In the same range as the needed one, or any.
            let side = |needed: i64, random: &mut Random| match random.below(2) {
                0 => random.below(2 * usize::try_from(needed).expect("a length")) as u32,
                _ => some_number(random),
            };
            let outline = [side(needed[0], random), side(needed[1], random)];
            let slack = tally.slack(&sized, outline).expect("all is accepted");
            let expected = [0, 1].map(|way| i64::from(outline[way]) - needed[way]);
            assert_eq!([slack.0, slack.1], expected, "{sized:?} in {outline:?}");
            below[0] += usize::from(slack.0 < 0);
            below[1] += usize::from(slack.1 < 0);
        }
    });
    let outlines = PLANS * OUTLINES;
    let often = |&count: &usize| (outlines / 8..outlines / 2).contains(&count);
    assert!(below.iter().all(often), "{below:?}");
    tally.finish(PLANS * (3 + OUTLINES));
}

/// Both ways apart: all pairs of a few outlines for plans that need little or
/// much.
#[test]
fn every_pair_of_a_few_outlines() {
    const SIDES: [u32; 13] = [
        0,
        1,
        2,
        65_534,
        65_535,
        65_536,
        (1 << 24) - 1,
        1 << 24,
        0x7fff_ffff,
        0x8000_0000,
        0x8000_0001,
        u32::MAX - 1,
        u32::MAX,
    ];
    let plans = [
        (SizedRecord::equal(&Walked::rising(1), 1), [1, 1]),
        (SizedRecord::equal(&Walked::falling(1), 65_535), [65_535; 2]),
        (SizedRecord::equal(&Walked::rising(2), 1), [2, 1]),
        (
            SizedRecord::equal(&Walked::rising(255), 65_535),
            [255 * 65_535, 65_535],
        ),
        (
            SizedRecord::equal(&Walked::falling(255), 65_535),
            [65_535, 255 * 65_535],
        ),
    ];
    let mut tally = Tally::new("pairs of a few outlines");
    for (sized, [across, up]) in &plans {
        for width in SIDES {
            for height in SIDES {
                let expected = (i64::from(width) - across, i64::from(height) - up);
                let slack = tally.slack(sized, [width, height]);
                assert_eq!(slack, Ok(expected), "{width} by {height}");
            }
        }
    }
    tally.finish(5 * 13 * 13);
}
