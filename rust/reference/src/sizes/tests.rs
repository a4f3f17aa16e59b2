use super::{lowest_corners, placing_in, slack, SizedPlan};
use crate::cases::sizes::{every_sizes, Placing, SizedRecord};
use crate::cases::walk::{each_walk, list_in_turn, Walked};
use crate::cases::worked::{FAR_ROOM, LISTED, REFUSED_RECORDS};
use crate::cases::Random;
use crate::{labels_of, plan_of, Chains, Contacts, Refusal, Room, Side};

/// What the call writes to slices of just the right length.
fn corners(sized: &SizedRecord) -> Placing {
    let n = sized.widths.len();
    let (mut x, mut y) = (vec![0; n], vec![0; n]);
    let SizedRecord {
        record,
        widths,
        heights,
    } = sized;
    let written = lowest_corners(record, widths, heights, &mut x, &mut y);
    assert_eq!(written, Ok(n), "{sized:?}");
    Placing { x, y }
}

/// The slack in an outline.
fn slack_in(sized: &SizedRecord, width: u32, height: u32) -> Result<(i64, i64), Refusal> {
    slack(&sized.record, &sized.widths, &sized.heights, width, height)
}

/// The record of rooms that stand by position, with their sizes.
fn sized_rooms(record: &[u8], rooms: &[Room]) -> SizedRecord {
    let widths: Vec<u16> = rooms.iter().map(|room| room.right - room.left).collect();
    let heights: Vec<u16> = rooms.iter().map(|room| room.top - room.bottom).collect();
    SizedRecord::new(record, widths, heights)
}

/// Where such rooms stand.
fn corners_of(rooms: &[Room]) -> Placing {
    Placing {
        x: rooms.iter().map(|room| u32::from(room.left)).collect(),
        y: rooms.iter().map(|room| u32::from(room.bottom)).collect(),
    }
}

/// Calls `visit` with every plan of up to `most` rooms.
fn each_plan(most: usize, mut visit: impl FnMut(&Walked)) {
    for n in 1..=most {
        each_walk(n, |triples| {
            let labels = labels_of(triples).expect("a walk has labels");
            let triples = triples.to_vec();
            visit(&Walked { labels, triples });
        });
    }
}

/// The pinwheel of the sheet: 1 is left of 4; 2 of 3, 4 and 5; 3 of 4. Below 2,
/// 3 and 5 is 1, and below 5 also 3 and 4.
#[test]
fn a_pinwheel_by_hand() {
    let sized = SizedRecord::new(LISTED, [10, 2, 3, 4, 1], [5, 1, 6, 20, 2]);
    let lowest = Placing {
        x: vec![0, 0, 2, 10, 2],
        y: vec![0, 5, 5, 0, 20],
    };
    assert_eq!(corners(&sized), lowest);
    // The furthest ends are those of 4, and of 5.
    assert_eq!(slack_in(&sized, 14, 22), Ok((0, 0)));
    assert_eq!(slack_in(&sized, 13, 23), Ok((-1, 1)));
    assert_eq!(slack_in(&sized, 0, u32::MAX), Ok((-14, 4_294_967_273)));
    assert_eq!(slack_in(&sized, u32::MAX, 0), Ok((4_294_967_281, -22)));
}

/// 1 and 2 are below 3, and that below 4 and 5. By x alone 1 would be left of
/// 5, yet however wide it is 5 begins where 4 ends.
#[test]
fn a_far_room_by_hand() {
    let sized = SizedRecord::new([0x05, 0x54, 0xe0], [100, 1, 2, 3, 4], [1, 50, 2, 7, 9]);
    let labels = FAR_ROOM.map(|(_, label)| label);
    assert_eq!(plan_of(&sized.record).unwrap().labels, labels);
    let lowest = Placing {
        x: vec![0, 100, 0, 0, 3],
        y: vec![0, 0, 50, 52, 52],
    };
    assert_eq!(corners(&sized), lowest);
    assert_eq!(slack_in(&sized, 101, 61), Ok((0, 0)));
}

#[test]
fn rows_and_piles_of_every_count() {
    for n in 1..=255u8 {
        let sizes: Vec<u16> = (0..u16::from(n)).map(|i| u16::MAX - 3 * i).collect();
        let ends: Vec<u32> = (0..=sizes.len())
            .map(|end| sizes[..end].iter().copied().map(u32::from).sum())
            .collect();
        let (starts, needed) = (ends[..sizes.len()].to_vec(), i64::from(ends[sizes.len()]));
        let none = vec![0; sizes.len()];
        let highest = i64::from(u16::MAX);

        let row = SizedRecord::new(Walked::rising(n).record(), &sizes[..], &sizes[..]);
        let (x, y) = (starts.clone(), none.clone());
        assert_eq!(corners(&row), Placing { x, y });
        assert_eq!(slack_in(&row, 0, 0), Ok((-needed, -highest)));

        let pile = SizedRecord::new(Walked::falling(n).record(), &sizes[..], &sizes[..]);
        let (x, y) = (none, starts);
        assert_eq!(corners(&pile), Placing { x, y });
        assert_eq!(slack_in(&pile, 0, 0), Ok((-highest, -needed)));
    }
}

#[test]
fn a_row_of_255_rooms_of_the_greatest_size_ends_below_2_to_the_24() {
    let row = SizedRecord::equal(&Walked::rising(255), u16::MAX);
    let placing = corners(&row);
    assert_eq!(placing.x[254], 254 * 65_535);
    assert_eq!(placing.y, [0; 255]);
    let needed = 255 * 65_535;
    assert!(needed < 1 << 24);
    assert_eq!(slack_in(&row, needed, 65_535), Ok((0, 0)));
}

/// In a floorplan every room begins where one directly left of it ends, or at
/// the outline. So the lowest corners for its own sizes are its own corners.
#[test]
fn drawings_are_their_own_lowest_corners() {
    each_plan(7, |walked| {
        let plan = plan_of(&walked.record()).expect("a walk is accepted");
        let sized = sized_rooms(&walked.record(), &plan.rooms);
        let own = corners_of(&plan.rooms);
        assert_eq!(corners(&sized), own, "{walked:?}");
        assert_eq!(sized.judged(&own), Ok(()), "{walked:?}");
        let n = plan.rooms.len() as u32;
        assert_eq!(slack_in(&sized, n, n), Ok((0, 0)), "{walked:?}");
    });
}

/// Where a room starts by chains of direct steps: the longest sum of sizes along
/// any chain that leads to it.
fn by_chains(chains: &Chains, side: Side, sizes: &[u16], room: usize) -> u32 {
    let rooms = 0..sizes.len();
    let directly_before = rooms.filter(|&other| chains.steps(side, other, room) == Some(1));
    let end = |other| by_chains(chains, side, sizes, other) + u32::from(sizes[other]);
    directly_before.map(end).max().unwrap_or(0)
}

#[test]
fn corners_are_the_longest_chains_of_direct_steps() {
    let mut random = Random::from_seed(193);
    each_plan(6, |walked| {
        let plan = plan_of(&walked.record()).expect("a walk is accepted");
        let chains = Contacts::of(&plan.rooms).chains();
        let sized = SizedRecord::some(walked, &mut random);
        let all = |side, sizes: &[u16]| {
            let rooms = 0..sizes.len();
            let start = |room| by_chains(&chains, side, sizes, room);
            rooms.map(start).collect::<Vec<u32>>()
        };
        let (x, y) = (
            all(Side::Left, &sized.widths),
            all(Side::Below, &sized.heights),
        );
        assert_eq!(corners(&sized), Placing { x, y }, "{sized:?}");
    });
}

/// Calls `visit` with every list of as many numbers, none above those of
/// `greatest` at its place.
fn each_up_to(greatest: &[u32], visit: &mut impl FnMut(&[u32])) {
    let mut numbers = vec![0; greatest.len()];
    loop {
        visit(&numbers);
        let Some(place) = (0..numbers.len()).find(|&at| numbers[at] < greatest[at]) else {
            return;
        };
        numbers[place] += 1;
        numbers[..place].fill(0);
    }
}

/// "No placing from 0 up that honours all left and below relations puts any
/// corner lower." One way at a time, with the other way as it is.
#[test]
fn no_placing_of_up_to_4_rooms_puts_a_corner_lower() {
    each_plan(4, |walked| {
        let n = walked.labels.len();
        for sizes in every_sizes(2, n) {
            let sized = SizedRecord::new(walked.record(), &sizes[..], &sizes[..]);
            let lowest = corners(&sized);
            let plan = SizedPlan::of(&sized.record, &sizes, &sizes).expect("suited sizes");
            let (mut least_x, mut least_y) = (vec![u32::MAX; n], vec![u32::MAX; n]);
            // In a box of 0 to 6 there is place for all four.
            each_up_to(&vec![6; n], &mut |numbers| {
                if plan.is_honoured_by(numbers, &lowest.y) {
                    keep_the_least(&mut least_x, numbers);
                }
                if plan.is_honoured_by(&lowest.x, numbers) {
                    keep_the_least(&mut least_y, numbers);
                }
            });
            let (x, y) = (least_x, least_y);
            assert_eq!(lowest, Placing { x, y }, "{sized:?}");
        }
    });
}

/// The lesser one of two numbers at each place.
fn keep_the_least(least: &mut [u32], numbers: &[u32]) {
    for (least, &number) in least.iter_mut().zip(numbers) {
        *least = number.min(*least);
    }
}

#[test]
fn placings_are_no_lower_than_the_lowest_corners_and_these_are_accepted() {
    let mut random = Random::from_seed(194);
    for round in 0..300 {
        let n = random.between(1, 60);
        let plan = list_in_turn(n, round, &mut random);
        let sized = SizedRecord::some(&plan, &mut random);
        let lowest = corners(&sized);
        assert_eq!(sized.judged(&lowest), Ok(()), "{sized:?}");
        let some = Placing::some(&sized, &mut random);
        for higher in [some, Placing::staircase(&sized)] {
            assert_eq!(sized.judged(&higher), Ok(()), "{sized:?}");
            let no_lower = |low: &[u32], high: &[u32]| low.iter().zip(high).all(|(l, h)| l <= h);
            assert!(no_lower(&lowest.x, &higher.x) && no_lower(&lowest.y, &higher.y));
        }
    }
}

/// Two rooms side by side, then one on another.
#[test]
fn rooms_may_touch_but_not_overlap_and_sums_do_not_wrap() {
    let broken = Err(Refusal::RelationBroken);
    let ends = [
        // start and size of the first, start of the second
        ([0, 1], 1, Ok(())),
        ([0, 1], 0, broken),
        ([7, 65_535], 65_542, Ok(())),
        ([7, 65_535], 65_541, broken),
        ([u32::MAX - 5, 5], u32::MAX, Ok(())),
        ([u32::MAX - 5, 6], u32::MAX, broken),
        ([u32::MAX - 5, 6], 0, broken),
        ([u32::MAX, 1], 0, broken),
        ([u32::MAX, 1], u32::MAX, broken),
        ([u32::MAX, 65_535], 65_534, broken),
        ([u32::MAX, 65_535], 65_535, broken),
    ];
    for ([first, size], second, expected) in ends {
        let sizes = [size as u16, 65_535];
        let starts = vec![first, second];
        let other = || vec![u32::MAX, 0];
        let row = SizedRecord::new([0x02, 0x40], sizes, [65_535; 2]);
        let (x, y) = (starts.clone(), other());
        assert_eq!(row.judged(&Placing { x, y }), expected, "{starts:?}");
        let pile = SizedRecord::new([0x02, 0xa0], [65_535; 2], sizes);
        let (x, y) = (other(), starts.clone());
        assert_eq!(pile.judged(&Placing { x, y }), expected, "{starts:?}");
    }
}

#[test]
fn the_rest_of_the_slices_keeps_its_values() {
    let (mut x, mut y) = ([0xa5; 4], [0x5a; 3]);
    let written = lowest_corners(&[0x02, 0x40], &[3, 4], &[5, 6], &mut x, &mut y);
    assert_eq!(written, Ok(2));
    assert_eq!(x, [0, 3, 0xa5, 0xa5]);
    assert_eq!(y, [0, 0, 0x5a]);
}

/// What the three calls say to a record and lists of these lengths, in which all
/// sizes are `size` and all corners 0. Nothing may be written on a refusal.
fn all_three(record: &[u8], lengths: [usize; 4], size: u16) -> [Result<(), Refusal>; 3] {
    let [widths, heights] = [lengths[0], lengths[1]].map(|length| vec![size; length]);
    let [mut x, mut y] = [lengths[2], lengths[3]].map(|length| vec![0; length]);
    let placing = placing_in(record, &widths, &heights, &x, &y);
    let slack = slack(record, &widths, &heights, 0, 0);
    x.fill(0xa5);
    y.fill(0xa5);
    let corners = lowest_corners(record, &widths, &heights, &mut x, &mut y);
    if corners.is_err() {
        assert!(x.iter().chain(&y).all(|&corner| corner == 0xa5));
    }
    [corners.map(drop), slack.map(drop), placing]
}

#[test]
fn each_refusal_and_those_that_it_comes_before() {
    for (record, refusal) in REFUSED_RECORDS
        .into_iter()
        .chain([(&[][..], Refusal::NoKind)])
    {
        for lengths in [[2, 2, 2, 2], [0, 1, 2, 3], [0; 4]] {
            let answers = all_three(record, lengths, 0);
            assert_eq!(answers, [Err(refusal); 3], "{record:02x?}");
        }
    }
    let (row, length) = ([0x02, 0x40], Err(Refusal::LengthDiffers));
    for other in [0, 1, 3, 258] {
        assert_eq!(all_three(&row, [other, 2, 1, 1], 0), [length; 3]);
        assert_eq!(all_three(&row, [2, other, 1, 1], 0), [length; 3]);
        // Corners are lent to one call and written by another.
        let zero = Err(Refusal::ZeroSize);
        assert_eq!(all_three(&row, [2, 2, other, 2], 0), [zero, zero, length]);
        assert_eq!(all_three(&row, [2, 2, 2, other], 0), [zero, zero, length]);
    }
    let [zero, broken] = [Refusal::ZeroSize, Refusal::RelationBroken].map(Err);
    assert_eq!(all_three(&row, [2; 4], 0), [zero; 3]);
    assert_eq!(all_three(&row, [2; 4], 1), [Ok(()), Ok(()), broken]);
    let short = Err(Refusal::SliceShort);
    assert_eq!(all_three(&row, [2, 2, 1, 2], 1), [short, Ok(()), length]);
    assert_eq!(all_three(&row, [2, 2, 2, 1], 1), [short, Ok(()), length]);
    assert_eq!(all_three(&[0x01], [1; 4], 1), [Ok(()); 3]);
}

#[test]
fn a_size_of_0_anywhere_is_refused() {
    for n in [1, 2, 3, 40, 255] {
        let record = Walked::rising(n).record();
        let n = usize::from(n);
        for place in [0, n / 2, n - 1] {
            let mut sizes = vec![1; n];
            sizes[place] = 0;
            let ones = vec![1; n];
            for (widths, heights) in [(&sizes, &ones), (&ones, &sizes)] {
                let sized = SizedRecord::new(&record[..], &widths[..], &heights[..]);
                let placing = Placing::staircase(&sized);
                assert_eq!(sized.judged(&placing), Err(Refusal::ZeroSize));
                assert_eq!(slack_in(&sized, 1, 1), Err(Refusal::ZeroSize));
            }
        }
    }
}
