//! Trees that are as wide or as deep as can be.

use compare::Tally;
use reference::cases::slicing::{SlicingPlan, COMBS, PINWHEELS};
use reference::{Cut, CuttingTree, Refusal};

const CUTS: [Cut; 2] = [Cut::Vertical, Cut::Horizontal];

/// Compares a plan with the tree that it was made from.
fn expect_tree(tally: &mut Tally, plan: &SlicingPlan) {
    tally.expect_tree(&plan.record(), &plan.tree.bytes());
}

#[test]
fn rows_of_2_to_255_rooms() {
    let mut tally = Tally::new("rows of rooms");
    for n in 2..=255 {
        for cut in CUTS {
            expect_tree(&mut tally, &SlicingPlan::row(cut, n));
        }
    }
    tally.finish_in_threes(2 * 254);
}

/// Levels alternate at every room, which stands first or last in each of them,
/// or in turn, or all round.
#[test]
fn combs_of_every_way() {
    let mut tally = Tally::new("combs and spirals");
    let counts = [
        2, 3, 4, 5, 6, 7, 8, 9, 31, 63, 64, 65, 127, 128, 129, 253, 254, 255,
    ];
    for n in counts {
        for cut in CUTS {
            for ends in COMBS {
                expect_tree(&mut tally, &SlicingPlan::comb(cut, n, ends));
            }
        }
    }
    tally.finish_in_threes(counts.len() * 2 * 5);
}

/// A pinwheel in the place of each of the rooms of a comb, the innermost too.
#[test]
fn combs_with_a_pinwheel_anywhere() {
    let mut tally = Tally::new("combs with a pinwheel");
    for (cut, ends) in CUTS.into_iter().cycle().zip(COMBS) {
        let comb = SlicingPlan::comb(cut, 251, ends);
        for place in (0..251).step_by(5) {
            for pinwheel in PINWHEELS {
                let record = comb.with_a_pinwheel(place, pinwheel).record();
                tally.expect_refused_tree(&record, Refusal::NotSlicing);
            }
        }
    }
    tally.expect_refused([Refusal::NotSlicing], [3 * 5 * 51 * 2]);
    tally.finish(3 * 5 * 51 * 2);
}

/// Rows of rows, with as many rooms in each: 15 by 17 are 255.
#[test]
fn rows_of_rows() {
    let mut tally = Tally::new("rows of rows");
    let sides = [2, 3, 5, 15, 17, 51, 85, 127];
    let mut plans = 0;
    for rows in sides {
        for rooms in sides.into_iter().filter(|rooms| rows * rooms <= 255) {
            for [outer, inner] in [CUTS, [CUTS[1], CUTS[0]]] {
                let row = CuttingTree::Node(inner, vec![CuttingTree::Leaf; rooms]);
                let plan = SlicingPlan::of(CuttingTree::Node(outer, vec![row; rows]));
                expect_tree(&mut tally, &plan);
                plans += 1;
            }
        }
    }
    assert!(plans > 60, "{plans} plans");
    tally.finish_in_threes(plans);
}

/// A row of rooms, each level of which has a row of rooms before and after the
/// next one.
#[test]
fn nested_rows() {
    let mut tally = Tally::new("nested rows");
    let mut plans = 0;
    for (before, after) in [(0, 2), (1, 1), (2, 0), (3, 4), (7, 1), (0, 9), (40, 40)] {
        for cut in CUTS {
            let mut tree = CuttingTree::Leaf;
            let mut level = cut;
            for _ in 0..254 / (before + after) {
                let mut children = vec![CuttingTree::Leaf; before];
                children.push(tree);
                children.extend(vec![CuttingTree::Leaf; after]);
                tree = CuttingTree::Node(level, children);
                level = CUTS[usize::from(level == CUTS[0])];
            }
            expect_tree(&mut tally, &SlicingPlan::of(tree));
            plans += 1;
        }
    }
    tally.finish_in_threes(plans);
}
