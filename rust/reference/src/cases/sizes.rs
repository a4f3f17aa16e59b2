//! Sizes for the rooms of plans, and placings of them.

use super::walk::Walked;
use super::{every_list, Random};
#[cfg(test)]
use crate::{placing_in, Refusal};
use crate::{plan_of, Plan, Side};

/// A record with the sizes of its rooms.
#[derive(Clone, Debug, PartialEq, Eq)]
pub struct SizedRecord {
    /// The record.
    pub record: Vec<u8>,
    /// The widths by position.
    pub widths: Vec<u16>,
    /// The heights by position.
    pub heights: Vec<u16>,
}

impl SizedRecord {
    /// A record with these sizes, be they suited to it or not.
    #[must_use]
    pub fn new(
        record: impl Into<Vec<u8>>,
        widths: impl Into<Vec<u16>>,
        heights: impl Into<Vec<u16>>,
    ) -> Self {
        Self {
            record: record.into(),
            widths: widths.into(),
            heights: heights.into(),
        }
    }

    /// The record of a plan whose rooms all have this width and this height.
    #[must_use]
    pub fn equal(plan: &Walked, size: u16) -> Self {
        let sizes = vec![size; plan.labels.len()];
        Self::new(plan.record(), sizes.clone(), sizes)
    }

    /// The record of a plan with [some sizes](some_sizes).
    pub fn some(plan: &Walked, random: &mut Random) -> Self {
        let n = plan.labels.len();
        let (widths, heights) = (some_sizes(n, random), some_sizes(n, random));
        Self::new(plan.record(), widths, heights)
    }

    /// What the definitions say to a placing.
    #[cfg(test)]
    pub(crate) fn judged(&self, placing: &Placing) -> Result<(), Refusal> {
        placing_in(
            &self.record,
            &self.widths,
            &self.heights,
            &placing.x,
            &placing.y,
        )
    }

    /// The plan that an accepted record stands for.
    fn plan(&self) -> Plan {
        plan_of(&self.record).expect("an accepted record")
    }
}

/// So many sizes of 1 to 65,535: in some lists all the least or all the
/// greatest, in some small ones, in some a few large ones among small ones, in
/// some any.
pub fn some_sizes(n: usize, random: &mut Random) -> Vec<u16> {
    let choices: &[[u16; 2]] = match random.below(6) {
        0 => &[[1, 1]],
        1 => &[[u16::MAX, u16::MAX]],
        2 => &[[1, 3]],
        3 => &[[1, 9], [1, 9], [1, 9], [1, u16::MAX]],
        4 => &[[1, 1], [u16::MAX - 1, u16::MAX]],
        _ => &[[1, u16::MAX]],
    };
    let size = |_| {
        let [first, last] = random.pick(choices);
        random.number(first, last)
    };
    (0..n).map(size).collect()
}

/// Every list of `n` sizes from 1 to `greatest`.
pub fn every_sizes(greatest: u8, n: usize) -> impl Iterator<Item = Vec<u16>> {
    let n = u32::try_from(n).expect("a few sizes");
    every_list(greatest - 1, n)
        .map(|list| list.into_iter().map(|less| u16::from(less) + 1).collect())
}

/// The lower-left corners of rooms, by position.
#[derive(Clone, Debug, PartialEq, Eq)]
pub struct Placing {
    /// Where their left edges are.
    pub x: Vec<u32>,
    /// Where their bottom edges are.
    pub y: Vec<u32>,
}

/// The widest gap before a room: for 255 rooms of any sizes these can all be so
/// wide.
const WIDEST_GAP: usize = 16_000_000;

impl Placing {
    /// Rooms from the lower left to the upper right, each beginning both ways
    /// where the one at the position before ends. Of any two rooms the one at
    /// the smaller position is left of the other one or below it, so this
    /// honours the relations of every plan.
    #[must_use]
    pub fn staircase(sized: &SizedRecord) -> Self {
        Self {
            x: one_after_another(&sized.widths),
            y: one_after_another(&sized.heights),
        }
    }

    /// A placing of an accepted record with suited sizes that honours its
    /// relations: in some the rooms have no gaps before them, in some all have
    /// or a few, and some stand as far right or as high as can be.
    pub fn some(sized: &SizedRecord, random: &mut Random) -> Self {
        let plan = sized.plan();
        let mut starts = |before, sizes| {
            let mut starts = with_gaps(&plan, before, sizes, random);
            if random.below(4) == 0 {
                push_to_the_end(&mut starts);
            }
            starts
        };
        Self {
            x: starts(Side::Left, &sized.widths),
            y: starts(Side::Below, &sized.heights),
        }
    }

    /// Breaks the relation of two rooms, of which there are at least two: the
    /// second one begins where the first one has not ended yet, often 1 before
    /// it ends.
    ///
    /// Where the first one ends beyond all corners the second one may begin
    /// anywhere, as at what is left of the sum in 32 bits.
    pub fn break_a_relation(&mut self, sized: &SizedRecord, random: &mut Random) {
        let second = random.between(1, self.x.len() - 1);
        let any = random.below(second);
        let first = random.pick(&[second - 1, any]);
        let (starts, sizes) = match sized.plan().side(first, second) {
            Side::Left => (&mut self.x, &sized.widths),
            _ => (&mut self.y, &sized.heights),
        };
        if random.below(4) == 0 {
            starts[first] = u32::MAX - random.pick(&[0, 0, 1, 7]);
        }
        let end = u64::from(starts[first]) + u64::from(sizes[first]);
        starts[second] = match u32::try_from(end) {
            Ok(end) => {
                let any = random.below(1 + end.min(1 << 20) as usize) as u32;
                end - random.pick(&[1, 1, 1, any.max(1), end])
            }
            Err(_) => random.pick(&[end as u32, u32::MAX, 0]),
        };
    }
}

/// Where rooms of these sizes start, each where the one before it ends.
fn one_after_another(sizes: &[u16]) -> Vec<u32> {
    let mut end = 0;
    let start = |&size: &u16| {
        let start = end;
        end += u32::from(size);
        start
    };
    sizes.iter().map(start).collect()
}

/// Where the rooms start in one direction, each with a gap before it, which may
/// be none.
fn with_gaps(plan: &Plan, before: Side, sizes: &[u16], random: &mut Random) -> Vec<u32> {
    let widest = random.pick(&[0, 1, 3, 1_000, WIDEST_GAP]);
    let among = random.pick(&[1, 1, 2, 8]);
    let mut starts: Vec<u32> = Vec::new();
    for room in 0..sizes.len() {
        let gap = match random.below(among) {
            0 => random.between(0, widest) as u32,
            _ => 0,
        };
        let before = (0..room).filter(|&other| plan.side(other, room) == before);
        let ends = before.map(|other| starts[other] + u32::from(sizes[other]));
        starts.push(ends.max().unwrap_or(0) + gap);
    }
    starts
}

/// Moves all rooms as far as there are numbers.
fn push_to_the_end(starts: &mut [u32]) {
    let furthest = starts.iter().copied().max().unwrap_or(0);
    for start in starts {
        *start += u32::MAX - furthest;
    }
}

#[cfg(test)]
mod tests {
    use super::{every_sizes, some_sizes, Placing, SizedRecord};
    use crate::cases::walk::{list_in_turn, some_count};
    use crate::cases::Random;
    use crate::Refusal;
    use std::collections::HashSet;

    #[test]
    fn placings_honour_the_relations_until_one_is_broken() {
        let mut random = Random::from_seed(191);
        for round in 0..400 {
            let n = some_count(&mut random);
            let plan = list_in_turn(n, round, &mut random);
            let sized = SizedRecord::some(&plan, &mut random);
            assert_eq!(sized.judged(&Placing::staircase(&sized)), Ok(()));
            let mut placing = Placing::some(&sized, &mut random);
            assert_eq!(sized.judged(&placing), Ok(()), "{sized:?} {placing:?}");
            if n > 1 {
                placing.break_a_relation(&sized, &mut random);
                let broken = Err(Refusal::RelationBroken);
                assert_eq!(sized.judged(&placing), broken, "{sized:?} {placing:?}");
            }
        }
    }

    #[test]
    fn lists_of_sizes_are_of_several_kinds() {
        let mut random = Random::from_seed(192);
        let mut kinds = [0; 4];
        for _ in 0..600 {
            let sizes = some_sizes(20, &mut random);
            assert_eq!(sizes.len(), 20);
            assert!(!sizes.contains(&0));
            let has = [sizes.contains(&1), sizes.contains(&u16::MAX)].map(usize::from);
            kinds[has[0] + 2 * has[1]] += 1;
        }
        assert!(kinds.iter().all(|&count| count > 30), "{kinds:?}");
    }

    #[test]
    fn every_list_of_small_sizes_comes_up_once() {
        let lists: Vec<Vec<u16>> = every_sizes(3, 4).collect();
        assert_eq!(lists.len(), 81);
        assert_eq!(lists.iter().collect::<HashSet<_>>().len(), 81);
        assert!(lists.iter().flatten().all(|size| (1..=3).contains(size)));
    }
}
