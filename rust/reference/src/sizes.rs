//! Real sizes and slack, of M-108, and its calls "Lowest corners", "Slack" and
//! "Placing in".

use crate::plan::front;
use crate::{plan_of, Plan, Refusal, Side};

/// A plan with "a width and height of 1 to 65,535 for each position".
#[derive(Clone, Debug)]
pub struct SizedPlan {
    plan: Plan,
    widths: Vec<u16>,
    heights: Vec<u16>,
}

impl SizedPlan {
    /// The plan of a record with these widths and heights.
    ///
    /// # Errors
    ///
    /// The first cause found in the order 9, 10, 11, 14, 12, 13, 24, 25.
    pub fn of(record: &[u8], widths: &[u16], heights: &[u16]) -> Result<Self, Refusal> {
        Self::lent_with(record, widths, heights, [])
    }

    /// The same where other lists of these lengths are lent too, which must also
    /// have n entries.
    fn lent_with<const OTHERS: usize>(
        record: &[u8],
        widths: &[u16],
        heights: &[u16],
        others: [usize; OTHERS],
    ) -> Result<Self, Refusal> {
        let plan = plan_of(record)?;
        let n = plan.labels.len();
        if widths.len() != n || heights.len() != n || others.iter().any(|&other| other != n) {
            return Err(Refusal::LengthDiffers);
        }
        if widths.contains(&0) || heights.contains(&0) {
            return Err(Refusal::ZeroSize);
        }
        Ok(Self {
            plan,
            widths: widths.to_vec(),
            heights: heights.to_vec(),
        })
    }

    /// The lowest corners by position: all x, and all y.
    #[must_use]
    pub fn lowest_corners(&self) -> [Vec<u64>; 2] {
        self.directions().map(|direction| direction.lowest())
    }

    /// The needed lengths: across, and up.
    #[must_use]
    pub fn needed(&self) -> [u64; 2] {
        self.directions().map(|direction| direction.needed())
    }

    /// Whether a placing breaks no relation: n corners by position, all x, and
    /// all y.
    ///
    /// # Panics
    ///
    /// If there are fewer.
    #[must_use]
    pub fn is_honoured_by(&self, x: &[u32], y: &[u32]) -> bool {
        let [across, up] = self.directions();
        across.is_honoured_by(x) && up.is_honoured_by(y)
    }

    /// Across, and up.
    fn directions(&self) -> [Direction<'_>; 2] {
        let direction = |before, sizes| Direction {
            plan: &self.plan,
            before,
            sizes,
        };
        [
            direction(Side::Left, &self.widths),
            direction(Side::Below, &self.heights),
        ]
    }
}

/// One direction of a plan with sizes. What holds across for left of, widths
/// and x holds "likewise upward" for below, heights and y.
///
/// Rooms are named by their places in lists by position, from 0 on. All sums
/// are whole numbers: with 64 bits none of them is too large.
struct Direction<'a> {
    plan: &'a Plan,
    /// On which side of another room one is that comes before it.
    before: Side,
    /// The sizes by position.
    sizes: &'a [u16],
}

impl Direction<'_> {
    /// Whether one room is left of another one, or below it upward.
    fn is_before(&self, one: usize, other: usize) -> bool {
        one != other && self.plan.side(one, other) == self.before
    }

    /// Where a room ends that starts there.
    fn end(&self, room: usize, start: u64) -> u64 {
        start + u64::from(self.sizes[room])
    }

    /// Where the rooms start: "A room starts where the furthest room left of it
    /// ends, or at 0, and likewise upward."
    fn lowest(&self) -> Vec<u64> {
        let mut starts: Vec<u64> = Vec::new();
        // A room left of another one, or below it, is at a smaller position. So
        // all those before a room have their starts when its own is found.
        for room in 0..self.sizes.len() {
            let before = (0..room).filter(|&other| self.is_before(other, room));
            let furthest = before.map(|other| self.end(other, starts[other])).max();
            starts.push(furthest.unwrap_or(0));
        }
        starts
    }

    /// The needed length: "the furthest end of any room in that direction at
    /// the lowest corners".
    fn needed(&self) -> u64 {
        let starts = self.lowest();
        let ends = (0..starts.len()).map(|room| self.end(room, starts[room]));
        ends.max().expect("a plan has rooms")
    }

    /// Whether with these starts "each room ends, as a whole-number sum, no
    /// later than every room right of it or above it begins".
    fn is_honoured_by(&self, starts: &[u32]) -> bool {
        let start = |room: usize| u64::from(starts[room]);
        let rooms = || 0..self.sizes.len();
        rooms().all(|one| {
            let mut after = rooms().filter(|&other| self.is_before(one, other));
            after.all(|other| self.end(one, start(one)) <= start(other))
        })
    }
}

/// Lowest corners: writes the lowest corners of a record's rooms, by position,
/// to the front of the two slices and gives the number of rooms, n.
///
/// Entries after the first n keep their values.
///
/// # Errors
///
/// The first cause found in the order 9, 10, 11, 14, 12, 13, 24, 25, 15; both
/// slices are then as they were.
///
/// # Panics
///
/// Never: 255 rooms of 65,535 each end below 2^24.
pub fn lowest_corners(
    record: &[u8],
    widths: &[u16],
    heights: &[u16],
    x: &mut [u32],
    y: &mut [u32],
) -> Result<usize, Refusal> {
    let lowest = SizedPlan::of(record, widths, heights)?.lowest_corners();
    let n = widths.len();
    let slices = [front(x, n)?, front(y, n)?];
    for (slice, corners) in slices.into_iter().zip(lowest) {
        for (place, corner) in slice.iter_mut().zip(corners) {
            *place = u32::try_from(corner).expect("a corner below 2^24");
        }
    }
    Ok(n)
}

/// Slack: "the slack each way is the outline less the needed length", across
/// and up, "and may be negative".
///
/// # Errors
///
/// The first cause found in the order 9, 10, 11, 14, 12, 13, 24, 25.
///
/// # Panics
///
/// Never: 255 rooms of 65,535 each end below 2^24.
pub fn slack(
    record: &[u8],
    widths: &[u16],
    heights: &[u16],
    outline_width: u32,
    outline_height: u32,
) -> Result<(i64, i64), Refusal> {
    let needed = SizedPlan::of(record, widths, heights)?.needed();
    let [across, up] = needed.map(|needed| i64::try_from(needed).expect("below 2^24"));
    let less = |outline, needed| i64::from(outline) - needed;
    Ok((less(outline_width, across), less(outline_height, up)))
}

/// Placing in: accepts a placing of a record's rooms, given as their lower-left
/// corners by position, "exactly if each room ends, as a whole-number sum, no
/// later than every room right of it or above it begins in that direction".
///
/// # Errors
///
/// The first cause found in the order 9, 10, 11, 14, 12, 13, 24, 25, 26.
pub fn placing_in(
    record: &[u8],
    widths: &[u16],
    heights: &[u16],
    x: &[u32],
    y: &[u32],
) -> Result<(), Refusal> {
    let plan = SizedPlan::lent_with(record, widths, heights, [x.len(), y.len()])?;
    if !plan.is_honoured_by(x, y) {
        return Err(Refusal::RelationBroken);
    }
    Ok(())
}

#[cfg(test)]
mod tests;
