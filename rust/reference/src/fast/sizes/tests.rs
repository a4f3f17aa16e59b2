use crate::cases::sizes::{some_sizes, Placing, SizedRecord};
use crate::cases::walk::{halves, list_in_turn, some_count, Walked};
use crate::cases::{every_code, worked, Random};
use crate::{fast, lowest_corners, placing_in, record_of, slack, Refusal};

/// A record, accepted or not, with as many sizes as its kind says.
fn with_sizes(record: &[u8], random: &mut Random) -> SizedRecord {
    let n = record.first().map_or(0, |&kind| usize::from(kind));
    let (widths, heights) = (some_sizes(n, random), some_sizes(n, random));
    SizedRecord::new(record, widths, heights)
}

/// Compares the two versions of "Lowest corners" on slices of these lengths, and
/// gives the answer.
fn compare_corners(sized: &SizedRecord, capacities: [usize; 2]) -> Result<Placing, Refusal> {
    let mut outcomes = Vec::new();
    for call in [lowest_corners, fast::lowest_corners] {
        let [mut x, mut y] = capacities.map(|capacity| vec![0xa5a5_a5a5; capacity]);
        let answer = call(&sized.record, &sized.widths, &sized.heights, &mut x, &mut y);
        outcomes.push((answer, Placing { x, y }));
    }
    assert_eq!(outcomes[0], outcomes[1], "{sized:?} into {capacities:?}");
    let (answer, mut corners) = outcomes.swap_remove(0);
    corners.x.truncate(answer?);
    corners.y.truncate(answer?);
    Ok(corners)
}

/// Compares the two versions of "Slack", and gives the answer.
fn compare_slack(sized: &SizedRecord, [width, height]: [u32; 2]) -> Result<(i64, i64), Refusal> {
    let (record, widths, heights) = (&sized.record, &sized.widths, &sized.heights);
    let answers = [slack, fast::slack].map(|call| call(record, widths, heights, width, height));
    assert_eq!(answers[0], answers[1], "{sized:?} in {width} by {height}");
    answers[0]
}

/// Compares the two versions of "Placing in", and gives the answer.
fn compare_placing(sized: &SizedRecord, placing: &Placing) -> Result<(), Refusal> {
    let (record, widths, heights) = (&sized.record, &sized.widths, &sized.heights);
    let Placing { x, y } = placing;
    let answers = [placing_in, fast::placing_in].map(|call| call(record, widths, heights, x, y));
    assert_eq!(answers[0], answers[1], "{sized:?} at {placing:?}");
    answers[0]
}

/// Compares all calls on suited lists, with the placing at the lowest corners,
/// and gives these.
fn compare(sized: &SizedRecord) -> Result<Placing, Refusal> {
    let n = sized.widths.len();
    for capacities in [[n, n.saturating_sub(1)], [0, n], [n, n]] {
        let _ = compare_corners(sized, capacities);
    }
    let lowest = compare_corners(sized, [n, n + 1]);
    let _ = compare_slack(sized, [10, u32::MAX]);
    let staircase = Placing::staircase(sized);
    for placing in [lowest.as_ref().unwrap_or(&staircase), &staircase] {
        let answer = compare_placing(sized, placing);
        assert_eq!(answer.err(), lowest.as_ref().err().copied(), "{sized:?}");
    }
    lowest
}

/// Compares "Placing in" on placings near the lowest one: with each corner, if it
/// can, one lower.
fn compare_lower(sized: &SizedRecord, lowest: &Placing) {
    let broken = Err(Refusal::RelationBroken);
    for place in 0..lowest.x.len() {
        let mut lower = lowest.clone();
        if lowest.x[place] > 0 {
            lower.x[place] -= 1;
            assert_eq!(compare_placing(sized, &lower), broken, "{sized:?}");
            lower.x[place] += 1;
        }
        if lowest.y[place] > 0 {
            lower.y[place] -= 1;
            assert_eq!(compare_placing(sized, &lower), broken, "{sized:?}");
        }
    }
}

/// Compares "Placing in" on random placings of an accepted record, and with one
/// relation of theirs broken.
fn compare_placings(sized: &SizedRecord, random: &mut Random) {
    let mut placing = Placing::some(sized, random);
    assert_eq!(compare_placing(sized, &placing), Ok(()), "{sized:?}");
    if sized.widths.len() > 1 {
        placing.break_a_relation(sized, random);
        let answer = compare_placing(sized, &placing);
        assert_eq!(answer, Err(Refusal::RelationBroken), "{sized:?}");
    }
}

/// The sheet's pinwheel with sizes.
fn pinwheel() -> SizedRecord {
    SizedRecord::new(worked::LISTED, [3, 1, 4, 1, 5], [9, 2, 6, 5, 3])
}

#[test]
fn a_pinwheel_has_these_corners_and_this_slack() {
    let corners = Placing {
        x: vec![0, 0, 1, 5, 1],
        y: vec![0, 9, 9, 0, 15],
    };
    assert_eq!(compare(&pinwheel()), Ok(corners));
    assert_eq!(compare_slack(&pinwheel(), [10, 10]), Ok((4, -8)));
}

#[test]
fn agrees_with_the_definitions_on_every_code_of_up_to_7_rooms() {
    let mut random = Random::from_seed(201);
    let mut accepted = 0;
    for n in 1..=7 {
        for code in every_code(n) {
            let sized = with_sizes(&record_of(n, &code), &mut random);
            if let Ok(lowest) = compare(&sized) {
                accepted += 1;
                compare_lower(&sized, &lowest);
                compare_placings(&sized, &mut random);
            }
        }
    }
    assert_eq!(accepted, 1 + 2 + 6 + 22 + 92 + 422 + 2_074);
}

#[test]
fn agrees_with_the_definitions_on_every_record_of_up_to_2_bytes() {
    let mut random = Random::from_seed(202);
    let mut accepted = 0;
    let mut count = |record: &[u8]| {
        accepted += usize::from(compare(&with_sizes(record, &mut random)).is_ok());
    };
    count(&[]);
    for kind in 0..=255 {
        count(&[kind]);
        for byte in 0..=255 {
            count(&[kind, byte]);
        }
    }
    assert_eq!(accepted, 1 + 2 + 6);
}

#[test]
fn agrees_with_the_definitions_on_random_plans() {
    let mut random = Random::from_seed(203);
    for round in 0..600 {
        let walked = list_in_turn(some_count(&mut random), round, &mut random);
        let sized = SizedRecord::some(&walked, &mut random);
        let lowest = compare(&sized).expect("a plan is accepted");
        compare_placings(&sized, &mut random);
        if round % 16 == 0 {
            compare_lower(&sized, &lowest);
        }
    }
}

#[test]
fn agrees_with_the_definitions_wherever_the_stores_change() {
    let mut random = Random::from_seed(204);
    for n in [1, 2, 7, 8, 9, 62, 63, 64, 65, 254, 255] {
        for round in 0..8 {
            let walked = list_in_turn(n, round, &mut random);
            let sized = SizedRecord::some(&walked, &mut random);
            assert!(compare(&sized).is_ok());
            compare_placings(&sized, &mut random);
        }
    }
}

#[test]
fn agrees_with_the_definitions_where_the_runs_are_most() {
    let mut random = Random::from_seed(205);
    for first in 0..8 {
        for then in 0..8 {
            let record = record_of(255, &halves(first, then));
            let _ = compare(&with_sizes(&record, &mut random));
        }
    }
    // As many as the smaller stores can have, and one more.
    for n in [63, 65] {
        let half = |number: u8| vec![[4, 2, 1].map(|worth| number & worth != 0); n / 2];
        for (new_run, join) in [(0b000, 0b111), (0b001, 0b110)] {
            let record = record_of(n as u8, &[half(new_run), half(join)].concat());
            let sized = with_sizes(&record, &mut random);
            let lowest = compare(&sized).expect("a plan is accepted");
            compare_lower(&sized, &lowest);
        }
    }
    for walked in Walked::with_128_runs() {
        let sized = SizedRecord::some(&walked, &mut random);
        let lowest = compare(&sized).expect("a plan is accepted");
        compare_lower(&sized, &lowest);
    }
}

#[test]
fn agrees_with_the_definitions_on_rows_of_the_greatest_sizes() {
    let (long, short) = (-255 * 65_535, -65_535);
    let rows = [
        (Walked::rising(255), (long, short)),
        (Walked::falling(255), (short, long)),
    ];
    for (walked, needed) in rows {
        let sized = SizedRecord::equal(&walked, u16::MAX);
        assert!(compare(&sized).is_ok());
        assert_eq!(compare_slack(&sized, [0; 2]), Ok(needed));
    }
}

/// Compares all calls with lists of these lengths, for widths, heights, x and y.
fn compare_lengths(sized: &SizedRecord, lengths: [usize; 4]) {
    let take = |sizes: &[u16], length: usize| -> Vec<u16> {
        sizes.iter().copied().cycle().take(length).collect()
    };
    let [widths, heights, x, y] = lengths;
    let other = SizedRecord::new(
        &sized.record[..],
        take(&sized.widths, widths),
        take(&sized.heights, heights),
    );
    let _ = compare_corners(&other, [5; 2]);
    let _ = compare_corners(&other, [0; 2]);
    let _ = compare_slack(&other, [1; 2]);
    let (x, y) = (vec![0; x], vec![0; y]);
    let _ = compare_placing(&other, &Placing { x, y });
}

#[test]
fn refusals_come_in_the_order_of_the_request() {
    for record in [worked::LISTED, [0x05, 0x31, 0x71], [0x05, 0x31, 0x72]] {
        for zeros in 0..4 {
            let mut sized = pinwheel();
            sized.record = record.to_vec();
            sized.widths[4] *= u16::from(zeros & 1 == 0);
            sized.heights[0] *= u16::from(zeros & 2 == 0);
            for length in [0, 4, 5, 6, 255, 256, 261] {
                compare_lengths(&sized, [length; 4]);
                for which in 0..4 {
                    let mut lengths = [5; 4];
                    lengths[which] = length;
                    compare_lengths(&sized, lengths);
                }
            }
        }
    }
}

#[test]
fn a_size_of_0_is_found_wherever_it_stands() {
    let mut random = Random::from_seed(206);
    for n in [1, 2, 15, 16, 17, 63, 64, 65, 255] {
        let walked = list_in_turn(n, n, &mut random);
        for place in 0..n {
            for which in [0, 1] {
                let mut sized = SizedRecord::some(&walked, &mut random);
                [&mut sized.widths, &mut sized.heights][which][place] = 0;
                assert_eq!(compare(&sized), Err(Refusal::ZeroSize), "{sized:?}");
            }
        }
    }
}
