//! Slicing plans of any size, made from their cutting trees, and plans that
//! are not slicing for one pinwheel in them.

use super::barred::with_a_block;
use super::walk::Walked;
use super::Random;
use crate::{triples, Cut, CuttingTree};

/// Table I of 003 for 1 to 10 rooms: the numbers of slicing and of mosaic
/// floorplans.
pub const TABLE_1: [(usize, usize); 10] = [
    (1, 1),
    (2, 2),
    (6, 6),
    (22, 22),
    (90, 92),
    (394, 422),
    (1_806, 2_074),
    (8_558, 10_754),
    (41_586, 58_202),
    (206_098, 326_240),
];

/// Records with their trees, read off the drawings. The last one is in the
/// request.
pub const WORKED: [(&[u8], &[u8]); 5] = [
    (&[0x01], &[1]),
    (&[0x02, 0x40], &[2, 2, 1, 1]),
    (&[0x02, 0xa0], &[3, 2, 1, 1]),
    // 2 3 4 1: three rooms in a row, and a bar above them.
    (&[0x04, 0x4a, 0x80], &[3, 2, 2, 3, 1, 1, 1, 1]),
    (&[0x04, 0x47, 0x00], &[3, 2, 2, 2, 1, 1, 2, 2, 1, 1]),
];

/// The labels of the two pinwheels, the smallest plans that are not slicing.
pub const PINWHEELS: [[u8; 5]; 2] = [[4, 1, 3, 5, 2], [2, 5, 3, 1, 4]];

/// A slicing plan, made from its cutting tree.
#[derive(Clone, Debug)]
pub struct SlicingPlan {
    /// The cutting tree.
    pub tree: CuttingTree,
    /// The labels by position, and the triples.
    pub walked: Walked,
}

impl SlicingPlan {
    /// The plan with this tree.
    #[must_use]
    pub fn of(tree: CuttingTree) -> Self {
        let walked = walked(labels_of(&tree));
        Self { tree, walked }
    }

    /// `n` rooms in a row, at least 2: one node has them all.
    #[must_use]
    pub fn row(cut: Cut, n: usize) -> Self {
        Self::of(CuttingTree::Node(cut, vec![CuttingTree::Leaf; n]))
    }

    /// `n` rooms, at least 1, of which each level cuts off one, at the first
    /// or the last end of what is left. The outermost cut is given, and the
    /// ends come round again and again.
    #[must_use]
    pub fn comb(outermost: Cut, n: usize, ends: &[End]) -> Self {
        let levels = cuts_from(outermost).zip(ends.iter().cycle());
        let levels: Vec<(Cut, &End)> = levels.take(n - 1).collect();
        let tree = levels.into_iter().rfold(CuttingTree::Leaf, |inner, level| {
            let (cut, end) = level;
            let children = match end {
                End::First => vec![CuttingTree::Leaf, inner],
                End::Last => vec![inner, CuttingTree::Leaf],
            };
            CuttingTree::Node(cut, children)
        });
        Self::of(tree)
    }

    /// A random plan of `n` rooms, at least 1, such as comes of it when again
    /// and again a room is cut in two, any room and either way.
    pub fn random(n: usize, random: &mut Random) -> Self {
        Self::of(Hand::EVEN.tree(n, Cut::Vertical, random))
    }

    /// A random plan of `n` rooms, at least 1, whose cuts prefer a direction
    /// or an end, so that many plans together have long rows, deep combs and
    /// whatever is between.
    pub fn biased(n: usize, random: &mut Random) -> Self {
        let hand = Hand::some(random);
        let outermost = random.pick(&[Cut::Vertical, Cut::Horizontal]);
        Self::of(hand.tree(n, outermost, random))
    }

    /// In one round a [`Self::random`] plan, in the next one a
    /// [`Self::biased`] plan.
    pub fn in_turn(n: usize, round: usize, random: &mut Random) -> Self {
        match round % 2 {
            0 => Self::random(n, random),
            _ => Self::biased(n, random),
        }
    }

    /// The record of the plan.
    #[must_use]
    pub fn record(&self) -> Vec<u8> {
        self.walked.record()
    }

    /// The plan with a pinwheel in the place of a room, which is not slicing.
    /// It has four rooms more.
    #[must_use]
    pub fn with_a_pinwheel(&self, place: usize, pinwheel: [u8; 5]) -> Walked {
        walked(with_a_block(&self.walked.labels, place, &pinwheel))
    }
}

/// An end of a rectangle: the left or the right one, or the lower or the upper
/// one, as it is cut.
#[derive(Clone, Copy, Debug, PartialEq, Eq)]
pub enum End {
    /// Left, or at the bottom.
    First,
    /// Right, or at the top.
    Last,
}

/// Ways in which combs cut off their rooms, level by level: all at one end, or
/// from end to end and back, or round in a spiral, in either sense.
pub const COMBS: [&[End]; 5] = [
    &[End::First],
    &[End::Last],
    &[End::First, End::Last],
    &[End::First, End::First, End::Last, End::Last],
    &[End::First, End::Last, End::Last, End::First],
];

/// The cuts of level after level, from the root down.
fn cuts_from(outermost: Cut) -> impl Iterator<Item = Cut> {
    std::iter::successors(Some(outermost), |&cut| Some(other(cut)))
}

fn other(cut: Cut) -> Cut {
    match cut {
        Cut::Vertical => Cut::Horizontal,
        Cut::Horizontal => Cut::Vertical,
    }
}

/// How rectangles are cut in two: how often the cut goes the other way than
/// the one before, and how often it takes off one room, each in so many of 8
/// cases.
struct Hand {
    turns: usize,
    one_first: usize,
    one_last: usize,
}

impl Hand {
    /// Either way, and anywhere.
    const EVEN: Self = Self {
        turns: 4,
        one_first: 0,
        one_last: 0,
    };

    fn some(random: &mut Random) -> Self {
        let (one_first, one_last) = random.pick(&[(0, 0), (7, 0), (0, 7), (4, 4), (3, 0), (1, 3)]);
        Self {
            turns: random.pick(&[1, 4, 7, 8]),
            one_first,
            one_last,
        }
    }

    /// The tree of `n` rooms, of which the rectangle round them was cut so.
    fn tree(&self, n: usize, before: Cut, random: &mut Random) -> CuttingTree {
        if n == 1 {
            return CuttingTree::Leaf;
        }
        let cut = if random.below(8) < self.turns {
            other(before)
        } else {
            before
        };
        let choice = random.below(8);
        let first = if choice < self.one_first {
            1
        } else if choice < self.one_first + self.one_last {
            n - 1
        } else {
            random.between(1, n - 1)
        };
        let two = [first, n - first].map(|rooms| self.tree(rooms, cut, random));
        CuttingTree::Node(cut, two.into_iter().flat_map(|t| parts(t, cut)).collect())
    }
}

/// What a tree adds to a node that is cut so: its own children if it is cut in
/// the same way, since a node has all of its lines.
fn parts(tree: CuttingTree, cut: Cut) -> Vec<CuttingTree> {
    match tree {
        CuttingTree::Node(same, children) if same == cut => children,
        other => vec![other],
    }
}

/// The labels by position of the plan with a tree.
///
/// Rooms left of others come before them by position and have smaller labels;
/// rooms below others come before them too and have larger ones. So leaves
/// stand in order of position, and each part of a node has a row of labels.
#[must_use]
pub fn labels_of(tree: &CuttingTree) -> Vec<u8> {
    match tree {
        CuttingTree::Leaf => vec![1],
        CuttingTree::Node(cut, children) => {
            let parts: Vec<Vec<u8>> = children.iter().map(labels_of).collect();
            let earlier = |at: usize| parts[..at].iter().map(Vec::len).sum::<usize>();
            let later = |at: usize| parts[at + 1..].iter().map(Vec::len).sum::<usize>();
            let part = |(at, part): (usize, &Vec<u8>)| {
                let smaller = match cut {
                    Cut::Vertical => earlier(at),
                    Cut::Horizontal => later(at),
                };
                let smaller = u8::try_from(smaller).expect("at most 255 rooms");
                part.iter()
                    .map(|label| smaller + label)
                    .collect::<Vec<u8>>()
            };
            parts.iter().enumerate().flat_map(part).collect()
        }
    }
}

/// A label list with its triples.
fn walked(labels: Vec<u8>) -> Walked {
    let triples = triples(&labels);
    Walked { labels, triples }
}

#[cfg(test)]
mod tests {
    use super::{SlicingPlan, COMBS, PINWHEELS, TABLE_1};
    use crate::cases::walk::some_count;
    use crate::cases::{Random, BAXTER_NUMBERS};
    use crate::{cutting_tree, drawing, is_slicing, labels_in, Cut, Refusal};
    use std::collections::HashSet;

    const CUTS: [Cut; 2] = [Cut::Vertical, Cut::Horizontal];

    /// The record that "Labels in" gives to a list.
    fn record_of(labels: &[u8]) -> Result<Vec<u8>, Refusal> {
        let mut record = vec![0; 97];
        let length = labels_in(labels, &mut record)?;
        record.truncate(length);
        Ok(record)
    }

    /// Holds a plan of `n` rooms to the definitions: its labels have its
    /// record, and their drawing is cut into its tree.
    fn check(plan: &SlicingPlan, n: usize) {
        let labels = &plan.walked.labels;
        assert_eq!(labels.len(), n);
        assert_eq!(record_of(labels), Ok(plan.record()), "{labels:?}");
        assert_eq!(cutting_tree(&drawing(labels)).as_ref(), Some(&plan.tree));
    }

    #[test]
    fn plans_have_the_trees_that_they_are_made_from() {
        let mut random = Random::from_seed(111);
        for round in 0..300 {
            let n = some_count(&mut random);
            check(&SlicingPlan::in_turn(n, round, &mut random), n);
        }
        for n in [2, 3, 7, 40, 255] {
            for cut in CUTS {
                check(&SlicingPlan::row(cut, n), n);
            }
        }
        for n in [1, 2, 3, 4, 5, 6, 7, 40, 255] {
            for (cut, ends) in CUTS
                .into_iter()
                .flat_map(|cut| COMBS.map(|ends| (cut, ends)))
            {
                check(&SlicingPlan::comb(cut, n, ends), n);
            }
        }
    }

    #[test]
    fn every_slicing_plan_of_5_rooms_comes_up_and_no_other() {
        let mut random = Random::from_seed(112);
        for plans in [SlicingPlan::random, SlicingPlan::biased] {
            let mut met = HashSet::new();
            for _ in 0..20_000 {
                met.insert(plans(5, &mut random).walked.labels);
            }
            assert!(met.iter().all(|labels| is_slicing(labels)));
            assert_eq!(met.len(), TABLE_1[4].0);
        }
    }

    #[test]
    fn a_pinwheel_makes_a_plan_that_is_not_slicing() {
        let mut random = Random::from_seed(113);
        for round in 0..100 {
            let n = random.between(1, 30);
            let plan = SlicingPlan::in_turn(n, round, &mut random);
            let place = random.below(n);
            for pinwheel in PINWHEELS {
                let walked = plan.with_a_pinwheel(place, pinwheel);
                assert_eq!(walked.labels.len(), n + 4);
                assert_eq!(record_of(&walked.labels), Ok(walked.record()));
                assert!(!is_slicing(&walked.labels), "{:?}", walked.labels);
            }
        }
    }

    #[test]
    fn deep_combs_are_as_deep_as_there_can_be() {
        for ends in COMBS {
            let comb = SlicingPlan::comb(Cut::Vertical, 255, ends);
            // Every level has a node of two children, one of which is a room.
            assert_eq!(comb.tree.bytes().len(), 255 + 2 * 254);
        }
        let row = SlicingPlan::row(Cut::Vertical, 255);
        assert_eq!(row.tree.bytes().len(), 255 + 2);
    }

    #[test]
    fn table_1_follows_from_what_003_and_000_print() {
        let mosaic = TABLE_1.map(|(_, mosaic)| mosaic);
        assert_eq!(mosaic[..8], BAXTER_NUMBERS);
        // Theorem 2.2.2 of 003: twice the Schröder number A for more than one
        // room. Printed are A_0 = A_1 = 1, of which its formula would make 4
        // slicing plans of 2 rooms; with A_1 = A_2 = 1 and the formula from
        // n = 3 on it gives the numbers of the table.
        let mut schroeder = vec![1, 1, 1];
        for n in 3..=10 {
            let (one, two) = (schroeder[n - 1], schroeder[n - 2]);
            schroeder.push((3 * (2 * n - 3) * one - (n - 3) * two) / n);
        }
        for n in 2..=10 {
            assert_eq!(TABLE_1[n - 1].0, 2 * schroeder[n], "n = {n}");
        }
    }
}
