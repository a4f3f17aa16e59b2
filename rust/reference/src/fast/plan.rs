//! "Record in" and the question, by two walks over the record.

use super::steps::{read, Step, Steps, NO_STEPS};
use super::walks::{walk, walk_back, AllSeen, Seen, NOTHING_SEEN};
use crate::{Refusal, Relation, Room, Side};
use std::hint::select_unpredictable;

/// Record in, with the answers of [`crate::record_in`].
///
/// # Errors
///
/// As there.
// Not inlined, so that a benchmark pays for a call as with a library.
#[inline(never)]
pub fn record_in(record: &[u8], labels: &mut [u8], rooms: &mut [Room]) -> Result<usize, Refusal> {
    let (mut steps, mut seen) = (NO_STEPS, NOTHING_SEEN);
    let n = read(record, &mut steps)?;
    walk(n, &steps, &mut seen)?;

    let labels = labels.get_mut(..n).ok_or(Refusal::SliceShort)?;
    let rooms = rooms.get_mut(..n).ok_or(Refusal::SliceShort)?;
    walk_back(n, &steps, &seen, 0, |place, label, entered| {
        labels[place] = label;
        let start = |across| start(place, steps[place], seen[place], across);
        let end = |across| end(place, steps[place + 1], entered, across);
        rooms[place] = Room {
            left: start(true),
            bottom: start(false),
            right: end(true),
            top: end(false),
            name: 0,
        };
    });
    Ok(n)
}

/// The question, with the answers of [`crate::question()`].
///
/// # Errors
///
/// As there.
// Not inlined, so that a benchmark pays for a call as with a library.
#[inline(never)]
pub fn question(record: &[u8], first: u8, second: u8) -> Result<(Relation, bool), Refusal> {
    let (mut steps, mut seen) = (NO_STEPS, NOTHING_SEEN);
    let n = read(record, &mut steps)?;
    walk(n, &steps, &mut seen)?;

    let (earlier, later) = (first.min(second), first.max(second));
    if earlier < 1 || usize::from(later) > n {
        return Err(Refusal::PositionOutside);
    }
    if earlier == later {
        return Err(Refusal::PositionsEqual);
    }

    let places = [earlier, later].map(|position| usize::from(position) - 1);
    let mut found = [(0, 0); 2];
    walk_back(n, &steps, &seen, places[0], |place, label, entered| {
        found[0] = (label, entered);
        if place == places[1] {
            found[1] = (label, entered);
        }
    });
    let is_left = found[0].0 < found[1].0;
    let entered = found.map(|(_, entered)| entered);
    let (direct, touch) = contact(n, &steps, &seen, places, entered);
    let side = match (is_left, first == earlier) {
        (true, true) => Side::Left,
        (true, false) => Side::Right,
        (false, true) => Side::Below,
        (false, false) => Side::Above,
    };
    Ok((Relation { side, direct }, touch))
}

/// Whether the rooms at two places, of which the earlier one comes first, are
/// in a direct relation, and whether they touch. For each, `entered` is what
/// the walk from the back gave.
///
/// In the drawing every line from 1 to n − 1 has at most one segment, and the
/// lines 0 and n have the outline sides. So two rooms touch exactly if they
/// have a line in common that is not one of those. As the earlier room is left
/// of the later one or below it, there are three ways to have one:
///
/// - The earlier room ends where the later one starts. This is inside, and
///   these are the facing edges: then, and only then, the relation is direct.
/// - Both start there. The earlier room starts before the place of the later
///   one, so this is where the later one starts the other way.
/// - Both end there. The later room ends after the position of the earlier
///   one, so this is where the earlier one ends the other way.
///
/// Nothing of it can be foreseen, so there are no branches.
#[inline(always)]
fn contact(
    n: usize,
    steps: &Steps,
    seen: &AllSeen,
    [earlier, later]: [usize; 2],
    entered: [u16; 2],
) -> (bool, bool) {
    let start_of_earlier = |across| start(earlier, steps[earlier], seen[earlier], across);
    let end_of_earlier = |across| end(earlier, steps[earlier + 1], entered[0], across);
    let end_of_later = |across| end(later, steps[later + 1], entered[1], across);

    // Whether it is across or up that the later room starts at the newest one,
    // and then, that the earlier one ends before what enters the gap.
    let (newest, across) = (seen[later].newest(), steps[later].goes_down());
    let meet = (end_of_earlier(across) == newest) | (end_of_earlier(!across) == later as u16);
    let start_together = (start_of_earlier(across) == newest) & (newest > 0);
    let across = steps[earlier + 1].goes_down();
    let end_together = (end_of_later(across) == entered[0]) & (usize::from(entered[0]) < n);
    (meet, meet | start_together | end_together)
}

/// Where the room at a place starts across, its left, or else its bottom: the
/// position before it or the newest one on the other side, as the step to it
/// tells.
fn start(place: usize, step: Step, seen: Seen, across: bool) -> u16 {
    select_unpredictable(step.goes_down() == across, seen.newest(), place as u16)
}

/// Where the room at a place ends across, its right, or else its top: the
/// position itself, or one less than that which first enters the gap on the
/// other side, as the step from it tells.
fn end(place: usize, step: Step, entered: u16, across: bool) -> u16 {
    select_unpredictable(step.goes_down() == across, entered, place as u16 + 1)
}

#[cfg(test)]
mod tests {
    use crate::cases::walk::random_list;
    use crate::cases::Random;
    use crate::{fast, plan_of, question, record_in, record_of, Questions, Room, TRIPLES};

    /// Compares the two versions of "Record in" on slices for so many labels
    /// and so many rooms.
    fn compare_into(record: &[u8], capacities: [usize; 2]) {
        let any_room = Room {
            name: 0xa5a5,
            ..Room::from([0xa5a5; 4])
        };
        let mut outcomes = Vec::new();
        for call in [record_in, fast::record_in] {
            let mut labels = vec![0xa5; capacities[0]];
            let mut rooms = vec![any_room; capacities[1]];
            let answer = call(record, &mut labels, &mut rooms);
            outcomes.push((answer, labels, rooms));
        }
        assert_eq!(
            outcomes[0], outcomes[1],
            "{record:02x?} into {capacities:?}"
        );
    }

    /// Compares the two versions of both calls.
    fn compare(record: &[u8]) {
        let Ok(plan) = plan_of(record) else {
            compare_into(record, [0; 2]);
            compare_into(record, [8; 2]);
            let answers = (question(record, 0, 0), fast::question(record, 0, 0));
            assert_eq!(answers.0, answers.1, "{record:02x?}");
            return;
        };
        let questions = Questions::about(plan);
        let n = record[0];
        for less in [1, usize::from(n)] {
            let capacities = [usize::from(n) - less, usize::from(n)];
            compare_into(record, capacities);
            compare_into(record, [capacities[1], capacities[0]]);
        }
        compare_into(record, [usize::from(n); 2]);
        compare_into(record, [usize::from(n) + 1, usize::from(n) + 2]);
        for first in 0..=n.saturating_add(1) {
            for second in 0..=n.saturating_add(1) {
                let answer = fast::question(record, first, second);
                let defined = questions.answer(first, second);
                assert_eq!(answer, defined, "{record:02x?}, {first} and {second}");
            }
        }
    }

    #[test]
    fn agrees_with_the_definitions_on_every_record_of_up_to_2_bytes() {
        compare(&[]);
        for kind in 0..=255 {
            compare(&[kind]);
            for byte in 0..=255 {
                compare(&[kind, byte]);
            }
        }
    }

    #[test]
    fn agrees_with_the_definitions_on_every_record_of_3_bytes_that_has_its_length() {
        for kind in 4..=6 {
            for body in 0..=u16::MAX {
                let [upper, lower] = body.to_be_bytes();
                compare(&[kind, upper, lower]);
            }
        }
    }

    #[test]
    fn agrees_with_the_definitions_on_long_walks() {
        let mut random = Random::from_seed(1);
        for n in [7, 8, 9, 30, 100, 254, 255] {
            for _ in 0..2 {
                compare(&random_list(n, &mut random).record());
            }
        }
    }

    #[test]
    fn agrees_with_the_definitions_where_the_runs_are_most() {
        // 127 new runs and then as many joins, or another step at the end.
        for (new_run, join) in [(0, 7), (4, 3)] {
            let new_runs = vec![TRIPLES[new_run]; 127];
            for last in TRIPLES {
                let mut triples = [&new_runs[..], &[TRIPLES[join]; 127]].concat();
                triples[253] = last;
                compare(&record_of(255, &triples));
            }
        }
        // New runs only, on one side or on both, and then a need that is met
        // or missing.
        for (low, high) in [(254, 0), (0, 254), (127, 127), (253, 0), (0, 253)] {
            let new_runs = [vec![TRIPLES[0]; low], vec![TRIPLES[4]; high]].concat();
            for last in TRIPLES {
                let mut triples = new_runs.clone();
                triples.resize(254, last);
                compare(&record_of(255, &triples));
            }
        }
    }
}
