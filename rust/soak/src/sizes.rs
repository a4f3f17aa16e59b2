//! Inputs of "Lowest corners", of "Slack" and of "Placing in".

use crate::records::damaged;
use crate::rooms::some_plan;
use crate::size::{by_definitions, capacities, some_walk};
use compare::Tally;
use reference::cases::sizes::{Placing, SizedRecord};
use reference::cases::Random;

/// Cases for each plan with sizes: the first one as it is, and others of which
/// most have faults.
const CASES: usize = 5;

/// Plans of so many rooms are always held to the definitions.
const SHORT: usize = 20;

/// Compares the lowest corners of a plan with sizes, and of the same with faults.
pub fn put_some_low(tally: &mut Tally, random: &mut Random) {
    for sized in some_sized_records(random) {
        let n = sized.widths.len();
        let capacities = capacities([n; 2], random);
        let _ = if by_definitions(n, SHORT, random) {
            tally.lowest_corners(&sized, capacities)
        } else {
            tally.lowest_corners_quickly(&sized, capacities)
        };
    }
}

/// Compares the slack of a plan with sizes in some outlines, and of the same with
/// faults.
pub fn outline_some(tally: &mut Tally, random: &mut Random) {
    for sized in some_sized_records(random) {
        let outline = [
            some_side(&sized.widths, random),
            some_side(&sized.heights, random),
        ];
        let _ = if by_definitions(sized.widths.len(), SHORT, random) {
            tally.slack(&sized, outline)
        } else {
            tally.slack_quickly(&sized, outline)
        };
    }
}

/// Compares placings of a plan with sizes. The first one is accepted; of the
/// others some have faults or break a relation.
pub fn place_some(tally: &mut Tally, random: &mut Random) {
    let (sized, placing) = some_placed(random);
    let answer = compare(tally, &sized, &placing, random);
    assert!(answer, "{sized:?}, {placing:?}");
    for _ in 1..CASES {
        let (mut sized, mut placing) = (sized.clone(), placing.clone());
        if random.below(2) == 0 {
            change(&mut placing, &sized, random);
        }
        if random.below(2) == 0 {
            put_a_fault(&mut sized, random);
        }
        compare(tally, &sized, &placing, random);
    }
}

/// Compares a placing, and says whether it is accepted.
fn compare(tally: &mut Tally, sized: &SizedRecord, placing: &Placing, random: &mut Random) -> bool {
    let answer = if by_definitions(sized.widths.len(), SHORT, random) {
        tally.placing_in(sized, placing)
    } else {
        tally.placing_in_quickly(sized, placing)
    };
    answer.is_ok()
}

/// A plan with sizes, and the same some times, at times with faults.
fn some_sized_records(random: &mut Random) -> [SizedRecord; CASES] {
    let plan = some_walk(random);
    let mut first = true;
    [(); CASES].map(|()| {
        let mut sized = SizedRecord::some(&plan, random);
        if !first && random.below(2) == 0 {
            put_a_fault(&mut sized, random);
        }
        first = false;
        sized
    })
}

/// A plan with sizes and a placing that honours its relations: the rooms of a
/// floorplan as they stand, or any.
fn some_placed(random: &mut Random) -> (SizedRecord, Placing) {
    if random.below(4) == 0 {
        return some_plan(random).sized();
    }
    let sized = SizedRecord::some(&some_walk(random), random);
    let placing = match random.below(8) {
        0 => Placing::staircase(&sized),
        _ => Placing::some(&sized, random),
    };
    (sized, placing)
}

/// Puts one fault, or two, into a record with sizes, which it suits.
fn put_a_fault(sized: &mut SizedRecord, random: &mut Random) {
    for _ in 0..random.pick(&[1, 1, 1, 2]) {
        let sizes = match random.below(2) {
            0 => &mut sized.widths,
            _ => &mut sized.heights,
        };
        match random.below(8) {
            0 if !sizes.is_empty() => {
                let place = random.below(sizes.len());
                sizes[place] = 0;
            }
            1 => change_length(sizes, random),
            _ => sized.record = damaged(&sized.record, random),
        }
    }
}

/// Gives a list another length, mostly 1 less or 1 more. Its last entry is then
/// there more than once.
fn change_length<T: Copy + Default>(list: &mut Vec<T>, random: &mut Random) {
    let n = list.len();
    let last = list.last().copied().unwrap_or_default();
    let fewer = n.saturating_sub(1);
    list.resize(
        random.pick(&[0, n / 2, fewer, fewer, n + 1, n + 1, n + 256]),
        last,
    );
}

/// Changes a placing of a record with sizes, which honours its relations: so
/// that it breaks one, a corner by a little, or the length of a list; or puts
/// any corners there.
fn change(placing: &mut Placing, sized: &SizedRecord, random: &mut Random) {
    let n = placing.x.len();
    let corners = random.below(2);
    match random.below(8) {
        0..=2 if n > 1 => placing.break_a_relation(sized, random),
        3 => change_length(starts(placing, corners), random),
        4 => {
            let end = random.pick(&[4, 1 << 18, 1 << 32]);
            starts(placing, corners).fill_with(|| random.below(end) as u32);
        }
        _ => {
            let corner = &mut starts(placing, corners)[random.below(n)];
            *corner = corner.wrapping_add(random.pick(&[1, u32::MAX, 1 << 31, 65_536]));
        }
    }
}

/// All x of a placing, or all y.
fn starts(placing: &mut Placing, which: usize) -> &mut Vec<u32> {
    match which {
        0 => &mut placing.x,
        _ => &mut placing.y,
    }
}

/// A side of an outline: as long as some of the rooms one after another, about
/// as long as a plan of so many needs, or any number.
fn some_side(sizes: &[u16], random: &mut Random) -> u32 {
    let some = random.between(0, sizes.len());
    let sum: u32 = sizes[..some].iter().copied().map(u32::from).sum();
    let any = u32::from_be_bytes([(); 4].map(|()| random.byte()));
    random.pick(&[sum, sum, sum, any, 0, 1, u32::MAX])
}
