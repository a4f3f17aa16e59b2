//! Plans whose rooms have sizes, and placings of them.

use compare::of_library;
use nenturxo::ROOMS_CAPACITY;
use reference::cases::sizes::{Placing, SizedRecord};
use reference::cases::walk::{random_list, Walked};
use reference::cases::Random;
use reference::{fast, Refusal};

/// A plan with sizes, a placing of its rooms and an outline.
pub struct SizedPlan {
    pub sized: SizedRecord,
    pub placing: Placing,
    pub outline: [u32; 2],
}

/// The output slices of "Lowest corners".
#[derive(Debug, PartialEq, Eq)]
pub struct Corners {
    pub x: [u32; ROOMS_CAPACITY],
    pub y: [u32; ROOMS_CAPACITY],
}

/// A Rust version of "Lowest corners".
type Lowest = fn(&[u8], &[u16], &[u16], &mut [u32], &mut [u32]) -> Result<usize, Refusal>;

/// A Rust version of "Slack".
type Slack = fn(&[u8], &[u16], &[u16], u32, u32) -> Result<(i64, i64), Refusal>;

/// A Rust version of "Placing in".
type Judging = fn(&[u8], &[u16], &[u16], &[u32], &[u32]) -> Result<(), Refusal>;

impl Corners {
    pub fn new() -> Self {
        Self {
            x: [0; ROOMS_CAPACITY],
            y: [0; ROOMS_CAPACITY],
        }
    }

    /// Hands a plan to the library.
    #[inline(always)]
    pub fn by_library(&mut self, plan: &SizedPlan) -> Result<usize, nenturxo::Refusal> {
        let (record, widths, heights) = plan.lists();
        nenturxo::lowest_corners(record, widths, heights, &mut self.x, &mut self.y)
    }

    /// Hands a plan to a Rust version.
    #[inline(always)]
    pub fn by(&mut self, version: Lowest, plan: &SizedPlan) -> Result<usize, Refusal> {
        let (record, widths, heights) = plan.lists();
        version(record, widths, heights, &mut self.x, &mut self.y)
    }

    /// The corners of so many rooms, as a placing.
    fn placing(&self, n: usize) -> Placing {
        let (x, y) = (self.x[..n].to_vec(), self.y[..n].to_vec());
        Placing { x, y }
    }
}

impl SizedPlan {
    /// A plan with sizes, at its lowest corners, and any outline.
    fn new(sized: SizedRecord, random: &mut Random) -> Self {
        let outline = [(); 2].map(|()| random.between(0, 1 << 24) as u32);
        let mut plan = Self {
            placing: Placing::staircase(&sized),
            sized,
            outline,
        };
        plan.placing = plan.lowest_corners();
        plan
    }

    /// A plan with random sizes.
    pub fn random(walked: &Walked, random: &mut Random) -> Self {
        let n = walked.labels.len();
        let [widths, heights] = [(); 2].map(|()| any_sizes(n, random));
        Self::new(SizedRecord::new(walked.record(), widths, heights), random)
    }

    fn lists(&self) -> (&[u8], &[u16], &[u16]) {
        let sized = &self.sized;
        (&sized.record, &sized.widths, &sized.heights)
    }

    /// The slack by the library.
    #[inline(always)]
    pub fn slack_by_library(&self) -> Result<nenturxo::Slack, nenturxo::Refusal> {
        let (record, widths, heights) = self.lists();
        nenturxo::slack(record, widths, heights, self.outline[0], self.outline[1])
    }

    /// The slack by a Rust version.
    #[inline(always)]
    pub fn slack_by(&self, version: Slack) -> Result<(i64, i64), Refusal> {
        let (record, widths, heights) = self.lists();
        version(record, widths, heights, self.outline[0], self.outline[1])
    }

    /// Judges the placing by the library.
    #[inline(always)]
    pub fn placed_by_library(&self) -> Result<(), nenturxo::Refusal> {
        let (record, widths, heights) = self.lists();
        nenturxo::placing_in(record, widths, heights, &self.placing.x, &self.placing.y)
    }

    /// Judges the placing by a Rust version.
    #[inline(always)]
    pub fn placed_by(&self, version: Judging) -> Result<(), Refusal> {
        let (record, widths, heights) = self.lists();
        version(record, widths, heights, &self.placing.x, &self.placing.y)
    }

    /// The corners that all versions give. They must agree, and must accept the
    /// plan.
    fn lowest_corners(&self) -> Placing {
        let mut library = Corners::new();
        let n = self.sized.widths.len();
        assert_eq!(library.by_library(self), Ok(n), "{:?}", self.sized);
        for version in [fast::lowest_corners, reference::lowest_corners] {
            let mut rust = Corners::new();
            assert_eq!(rust.by(version, self), Ok(n), "{:?}", self.sized);
            assert_eq!(library, rust, "{:?}", self.sized);
        }
        library.placing(n)
    }

    /// Stops unless all versions of each call accept the plan and the placing,
    /// with the same result. What "Lowest corners" gives was checked when it
    /// became the placing.
    pub fn check(&self) {
        let library = self.slack_by_library();
        for version in [fast::slack, reference::slack] {
            let slack = self.slack_by(version).expect("suited sizes");
            assert_eq!(library, Ok(of_library::slack(slack)), "{:?}", self.sized);
        }
        self.check_placing(None);
    }

    /// Stops unless all versions answer the placing so.
    fn check_placing(&self, refusal: Option<Refusal>) {
        let library = self.placed_by_library().map_err(|r| r.number());
        for version in [fast::placing_in, reference::placing_in] {
            let answer = self.placed_by(version);
            assert_eq!(answer.err(), refusal, "{:?} {:?}", self.sized, self.placing);
            assert_eq!(library, answer.map_err(|r| u32::from(r.number())));
        }
    }
}

fn any_sizes(n: usize, random: &mut Random) -> Vec<u16> {
    (0..n).map(|_| random.number(1, u16::MAX)).collect()
}

/// A kind of plans with sizes.
pub struct Kind {
    pub name: &'static str,
    plan: fn(u8, &mut Random) -> SizedPlan,
}

/// The kinds: all rooms in one row, where every step is foreseen; rooms of one
/// size; and any plan with any sizes.
pub const SIZED_PLANS: [Kind; 3] = [
    Kind {
        name: "row",
        plan: |n, random| {
            let rows = [Walked::rising(n), Walked::falling(n)];
            SizedPlan::random(&rows[random.below(2)], random)
        },
    },
    Kind {
        name: "sizes of 1",
        plan: |n, random| {
            let walked = random_list(n.into(), random);
            SizedPlan::new(SizedRecord::equal(&walked, 1), random)
        },
    },
    Kind {
        name: "random",
        plan: |n, random| SizedPlan::random(&random_list(n.into(), random), random),
    },
];

impl Kind {
    /// So many plans of this kind. All versions answer them alike.
    pub fn plans(&self, count: usize, n: u8) -> Vec<SizedPlan> {
        let mut random = Random::from_seed(n.into());
        let plans = (0..count).map(|_| (self.plan)(n, &mut random));
        let plans: Vec<SizedPlan> = plans.collect();
        plans.iter().for_each(SizedPlan::check);
        plans
    }
}

/// A kind of placings of random plans, and the refusal that it gets, if any.
pub struct PlacingKind {
    pub name: &'static str,
    placing: fn(&SizedPlan) -> Placing,
    refusal: Option<Refusal>,
}

/// The kinds: the lowest corners; all rooms from the lower left to the upper
/// right; and placings in which the second room, the last one or every room
/// begins too early.
pub const PLACINGS: [PlacingKind; 5] = [
    PlacingKind {
        name: "lowest",
        placing: |plan| plan.placing.clone(),
        refusal: None,
    },
    PlacingKind {
        name: "staircase",
        placing: |plan| Placing::staircase(&plan.sized),
        refusal: None,
    },
    PlacingKind {
        name: "second early",
        placing: |plan| with_one_at_0(plan, 1),
        refusal: Some(Refusal::RelationBroken),
    },
    PlacingKind {
        name: "last early",
        placing: |plan| with_one_at_0(plan, plan.placing.x.len() - 1),
        refusal: Some(Refusal::RelationBroken),
    },
    PlacingKind {
        name: "all early",
        placing: |plan| {
            let zeros = vec![0; plan.placing.x.len()];
            let (x, y) = (zeros.clone(), zeros);
            Placing { x, y }
        },
        refusal: Some(Refusal::RelationBroken),
    },
];

/// The lowest corners, but for the room at a place.
fn with_one_at_0(plan: &SizedPlan, place: usize) -> Placing {
    let mut placing = plan.placing.clone();
    (placing.x[place], placing.y[place]) = (0, 0);
    placing
}

impl PlacingKind {
    /// So many random plans of `n` rooms with placings of this kind. All
    /// versions answer them alike.
    pub fn plans(&self, count: usize, n: u8) -> Vec<SizedPlan> {
        let [.., random] = SIZED_PLANS;
        let mut plans = random.plans(count, n);
        for plan in &mut plans {
            plan.placing = (self.placing)(plan);
            plan.check_placing(self.refusal);
        }
        plans
    }
}
