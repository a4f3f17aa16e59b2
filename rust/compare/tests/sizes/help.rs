//! What several of the tests are made of.

use compare::Tally;
use reference::cases::sizes::{Placing, SizedRecord};
use reference::cases::walk::{each_walk, Walked};
use reference::{labels_of, Refusal};

/// Calls `visit` with every plan of `n` rooms.
pub fn each_plan(n: usize, mut visit: impl FnMut(&Walked)) {
    each_walk(n, |triples| {
        let labels = labels_of(triples).expect("a walk has labels");
        let triples = triples.to_vec();
        visit(&Walked { labels, triples });
    });
}

/// A placing of `n` rooms that all have their corners at 0.
pub fn at_0(n: usize) -> Placing {
    Placing {
        x: vec![0; n],
        y: vec![0; n],
    }
}

/// How many cases [`expect_refused`] compares.
pub const REFUSED: usize = 7;

/// Compares a record with sizes that all three calls must refuse with
/// `refusal`, whatever the slices, the outline and the corners: as many of them
/// as `n`, which honour the relations or not.
pub fn expect_refused(tally: &mut Tally, sized: &SizedRecord, n: usize, refusal: Refusal) {
    tally.expect_refused_corners(sized, refusal);
    tally.expect_refused_slack(sized, refusal);
    let rising: Vec<u32> = (0..).step_by(65_536).take(n).collect();
    let (x, y) = (rising.clone(), rising);
    for placing in [Placing { x, y }, at_0(n)] {
        tally.expect_placing(sized, &placing, Err(refusal));
    }
}

/// Where the furthest room of a placing ends, across and up.
pub fn furthest_ends(sized: &SizedRecord, placing: &Placing) -> [u32; 2] {
    let furthest = |starts: &[u32], sizes: &[u16]| {
        let ends = starts.iter().zip(sizes);
        let ends = ends.map(|(&start, &size)| start + u32::from(size));
        ends.max().expect("a plan has rooms")
    };
    [
        furthest(&placing.x, &sized.widths),
        furthest(&placing.y, &sized.heights),
    ]
}

/// Whether no corner of a placing is lower than that of another one.
pub fn is_no_lower(placing: &Placing, lowest: &Placing) -> bool {
    let no_lower = |starts: &[u32], lowest: &[u32]| starts.iter().zip(lowest).all(|(s, l)| s >= l);
    no_lower(&placing.x, &lowest.x) && no_lower(&placing.y, &lowest.y)
}
