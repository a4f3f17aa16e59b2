//! Plans of different shapes, slicing ones and others.

use nenturxo::TREE_CAPACITY;
use reference::cases::slicing::{End, SlicingPlan, COMBS, PINWHEELS};
use reference::cases::walk::random_list;
use reference::cases::Random;
use reference::{fast, Cut, Refusal};

/// A shape of plans, and the refusal that "Tree" gives it, if any.
pub struct Shape {
    pub name: &'static str,
    /// The counts of rooms that it is timed with.
    pub rooms: &'static [usize],
    /// So many records of `n` rooms, if there are that many plans.
    records: fn(usize, usize, &mut Random) -> Vec<Vec<u8>>,
    refusal: Option<Refusal>,
}

/// The shapes: one node has all rooms; each level cuts off one, at the first
/// end, at the last one, or all round; anything is cut; and plans that are not
/// slicing, for one pinwheel or for any number of them.
pub const SHAPES: [Shape; 7] = [
    Shape {
        name: "row",
        rooms: &[255],
        records: |_, n, _| CUTS.map(|cut| SlicingPlan::row(cut, n).record()).to_vec(),
        refusal: None,
    },
    Shape {
        name: "comb, first",
        rooms: &[255],
        records: |_, n, _| combs(n, &COMBS[..1]),
        refusal: None,
    },
    Shape {
        name: "comb, last",
        rooms: &[255],
        records: |_, n, _| combs(n, &COMBS[1..2]),
        refusal: None,
    },
    Shape {
        name: "spiral",
        rooms: &[255],
        records: |_, n, _| combs(n, &COMBS[3..]),
        refusal: None,
    },
    Shape {
        name: "random",
        rooms: &[40, 255],
        records: |count, n, random| {
            let plans = (0..count).map(|_| SlicingPlan::random(n, random));
            plans.map(|plan| plan.record()).collect()
        },
        refusal: None,
    },
    Shape {
        name: "pinwheel",
        rooms: &[255],
        records: |count, n, random| (0..count).map(|_| with_a_pinwheel(n, random)).collect(),
        refusal: Some(Refusal::NotSlicing),
    },
    Shape {
        name: "any plan",
        rooms: &[255],
        records: |count, n, random| (0..count).map(|_| not_slicing(n, random)).collect(),
        refusal: Some(Refusal::NotSlicing),
    },
];

const CUTS: [Cut; 2] = [Cut::Vertical, Cut::Horizontal];

/// The combs that cut off their rooms at these ends, with both outermost cuts.
fn combs(n: usize, ends: &[&[End]]) -> Vec<Vec<u8>> {
    let combs = ends.iter().flat_map(|ends| CUTS.map(|cut| (cut, ends)));
    combs
        .map(|(cut, ends)| SlicingPlan::comb(cut, n, ends).record())
        .collect()
}

/// A random plan that would be slicing without one pinwheel in it.
fn with_a_pinwheel(n: usize, random: &mut Random) -> Vec<u8> {
    let plan = SlicingPlan::random(n - 4, random);
    let walked = plan.with_a_pinwheel(random.below(n - 4), random.pick(&PINWHEELS));
    walked.record()
}

/// A random plan that is not slicing.
fn not_slicing(n: usize, random: &mut Random) -> Vec<u8> {
    loop {
        let record = random_list(n, random).record();
        if answer(&record).is_err() {
            return record;
        }
    }
}

impl Shape {
    /// Records of this shape. All versions answer them alike.
    pub fn records(&self, count: usize, n: usize) -> Vec<Vec<u8>> {
        let records = (self.records)(count, n, &mut Random::from_seed(n as u64));
        for record in &records {
            assert_eq!(answer(record).err(), self.refusal, "{record:02X?}");
        }
        records
    }
}

/// What all versions answer a record with, in a slice that is long enough. They
/// must agree.
pub fn answer(record: &[u8]) -> Result<Vec<u8>, Refusal> {
    let [mut library, mut rust, mut same] = [[0; TREE_CAPACITY]; 3];
    let by_library = nenturxo::tree(record, &mut library).map_err(|r| r.number());
    let answer = fast::tree(record, &mut rust);
    let expected = answer.map_err(|refusal| u32::from(refusal.number()));
    assert_eq!(by_library, expected, "{record:02X?}");
    assert_eq!(library, rust, "{record:02X?}");
    let by_intervals = fast::tree_by_intervals(record, &mut same);
    assert_eq!(by_intervals, answer, "{record:02X?}");
    assert_eq!(same, rust, "{record:02X?}");
    answer.map(|length| rust[..length].to_vec())
}
