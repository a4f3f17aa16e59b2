//! Placings from floorplans that were stretched and slid. In a floorplan every
//! room begins where one left of it ends, or at the outline: so its own corners,
//! less where the outline begins, are the lowest ones for its own sizes.

use crate::help::{furthest_ends, is_no_lower};
use compare::floorplan::some_box;
use compare::{Floorplan, Tally};
use reference::cases::sizes::{Placing, SizedRecord};
use reference::cases::walk::{list_in_turn, some_count};
use reference::cases::Random;
use reference::Refusal;

/// Compares a floorplan with its own sizes, and gives its lowest corners.
fn compare_own(tally: &mut Tally, sized: &SizedRecord, own: &Placing) -> Placing {
    tally.expect_placing(sized, own, Ok(()));
    let first = |starts: &[u32]| *starts.iter().min().expect("a plan has rooms");
    let (left, bottom) = (first(&own.x), first(&own.y));
    let lowest = tally.expect_corners(sized);
    let expected = Placing {
        x: own.x.iter().map(|x| x - left).collect(),
        y: own.y.iter().map(|y| y - bottom).collect(),
    };
    assert_eq!(lowest, expected, "{sized:?}");
    let [right, top] = furthest_ends(sized, own);
    tally.expect_needed(sized, [right - left, top - bottom]);
    lowest
}

/// How many cases that are.
const OWN: usize = 1 + 3 + 5;

/// A smaller size, and where in its place such a room stands: at either end of
/// it, or anywhere.
fn shrunk(start: u32, size: u16, random: &mut Random) -> (u32, u16) {
    let any = random.number(1, size);
    let smaller = random.pick(&[1, size, size.div_ceil(2), any]);
    let left = usize::from(size - smaller);
    let any = random.between(0, left);
    let moved = random.pick(&[0, left, any]);
    (start + moved as u32, smaller)
}

/// The same plan with smaller rooms, each within the place of its own.
fn with_smaller_rooms(
    sized: &SizedRecord,
    own: &Placing,
    random: &mut Random,
) -> (SizedRecord, Placing) {
    let mut smaller = |starts: &[u32], sizes: &[u16]| {
        let rooms = starts.iter().zip(sizes);
        let rooms = rooms.map(|(&start, &size)| shrunk(start, size, random));
        rooms.unzip::<u32, u16, Vec<u32>, Vec<u16>>()
    };
    let (x, widths) = smaller(&own.x, &sized.widths);
    let (y, heights) = smaller(&own.y, &sized.heights);
    let sized = SizedRecord::new(&sized.record[..], widths, heights);
    (sized, Placing { x, y })
}

/// Compares a floorplan with its own sizes; with smaller rooms in their places,
/// which is accepted too and no lower than what is lowest then; and with one that
/// is wider.
fn compare(tally: &mut Tally, plan: &Floorplan, random: &mut Random) {
    let (sized, own) = plan.sized();
    compare_own(tally, &sized, &own);
    let (smaller, placing) = with_smaller_rooms(&sized, &own, random);
    tally.expect_placing(&smaller, &placing, Ok(()));
    let lowest = tally.expect_corners(&smaller);
    assert!(is_no_lower(&placing, &lowest), "{smaller:?}, {placing:?}");
    compare_larger(tally, &sized, &own, random);
}

/// Compares a floorplan in which one room is wider by 1: that is refused unless
/// it is at the right side of the outline.
fn compare_larger(tally: &mut Tally, sized: &SizedRecord, own: &Placing, random: &mut Random) {
    let place = random.below(sized.widths.len());
    let [right, _] = furthest_ends(sized, own);
    let mut larger = sized.clone();
    let Some(width) = larger.widths[place].checked_add(1) else {
        return;
    };
    larger.widths[place] = width;
    let is_last = own.x[place] + u32::from(sized.widths[place]) == right;
    let expected = is_last.then_some(()).ok_or(Refusal::RelationBroken);
    tally.expect_placing(&larger, own, expected);
}

#[test]
fn stretched_and_slid_drawings() {
    const PLANS: usize = 1_000;
    let name = "stretched and slid drawings";
    let tally = Tally::of_rounds(name, 521, 0..PLANS, |tally, random, round| {
        let n = [random.between(1, 12), some_count(random)][round % 2];
        let mut plan = Floorplan::drawn(&list_in_turn(n, round / 2, random).labels);
        plan.move_about(5, random);
        compare(tally, &plan, random);
    });
    tally.expect_often(PLANS / 4, &[Refusal::RelationBroken]);
    tally.expect_refused([Refusal::SliceShort], [2 * PLANS]);
    tally.finish(PLANS * (OWN + 1 + 3));
}

#[test]
fn nested_plans() {
    const PLANS: usize = 200;
    let name = "nested plans";
    let tally = Tally::of_rounds(name, 522, 0..PLANS, |tally, random, _| {
        let n = random.between(1, 60);
        let mut plan = Floorplan::nested(n, some_box(random), random);
        plan.slide(5, random);
        plan.shuffle(random);
        compare(tally, &plan, random);
    });
    tally.expect_often(PLANS / 4, &[Refusal::RelationBroken]);
    tally.finish(PLANS * (OWN + 1 + 3));
}

/// Drawings, which begin at 0 and end at n.
#[test]
fn drawings_of_every_count() {
    let name = "drawings of 1, 2, .. 255 rooms";
    let tally = Tally::of_rounds(name, 523, 1..=255, |tally, random, n| {
        let plan = Floorplan::drawn(&list_in_turn(n, n, random).labels);
        let (sized, own) = plan.sized();
        let lowest = compare_own(tally, &sized, &own);
        assert_eq!(lowest, own, "{sized:?}");
        let side = i64::try_from(n).expect("a count");
        assert_eq!(tally.slack(&sized, [0; 2]), Ok((-side, -side)));
    });
    tally.finish(255 * (OWN + 1));
}
