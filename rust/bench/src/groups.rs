//! Plans with two groups of their rooms.

use compare::of_library;
use reference::cases::groups::{group_of, parted_groups, related_groups, single_rooms};
use reference::cases::walk::{random_list, Walked};
use reference::cases::Random;
use reference::{fast, plan_of, Group, Plan, Refusal, Side};

/// What two groups are answered with.
type Answer = Result<Option<Side>, Refusal>;

/// A Rust version of "Groups".
type Version = fn(&[u8], &Group, &Group) -> Answer;

/// The record of a plan, and two groups.
pub struct GroupedPlan {
    record: Vec<u8>,
    first: Group,
    second: Group,
}

impl GroupedPlan {
    fn new(walked: &Walked, groups: impl FnOnce(&Plan) -> [Group; 2]) -> Self {
        let record = walked.record();
        let plan = plan_of(&record).expect("walks are accepted");
        let [first, second] = groups(&plan);
        Self {
            record,
            first,
            second,
        }
    }

    /// A plan of two or more rooms, and random groups that are related.
    pub fn related(walked: &Walked, random: &mut Random) -> Self {
        Self::new(walked, |plan| related_groups(plan, random))
    }

    /// Asks the library.
    #[inline(always)]
    pub fn by_library(&self) -> Result<Option<nenturxo::Side>, nenturxo::Refusal> {
        nenturxo::groups(&self.record, &self.first, &self.second)
    }

    /// Asks a Rust version.
    #[inline(always)]
    pub fn by(&self, version: Version) -> Answer {
        version(&self.record, &self.first, &self.second)
    }

    /// What all versions answer. They must agree.
    pub fn answer(&self) -> Answer {
        let answer = self.by(fast::groups);
        assert_eq!(self.by(reference::groups), answer, "{:02X?}", self.record);
        let library = self.by_library().map_err(|refusal| refusal.number());
        let expected = answer
            .map(|side| side.map(of_library::side))
            .map_err(|refusal| u32::from(refusal.number()));
        assert_eq!(library, expected, "{:02X?}", self.record);
        answer
    }
}

/// A kind of two groups, and whether an answer is what it gets.
pub struct Kind {
    pub name: &'static str,
    groups: fn(&Plan, &mut Random) -> [Group; 2],
    is_answered: fn(Answer) -> bool,
}

/// The kinds: one group on one side of the other; one before the other by their
/// positions, and yet mixed; positions in turn, so that no step has to be looked
/// at; single rooms; and an empty group.
pub const PAIRS: [Kind; 5] = [
    Kind {
        name: "related",
        groups: related_groups,
        is_answered: |answer| matches!(answer, Ok(Some(_))),
    },
    Kind {
        name: "parted, mixed",
        groups: |plan, random| parted_groups(plan.labels.len(), random),
        is_answered: |answer| answer == Ok(None),
    },
    Kind {
        name: "in turn",
        groups: |plan, _| {
            let n = plan.labels.len();
            [1, 2].map(|start| group_of(&(start..=n).step_by(2).collect::<Vec<_>>()))
        },
        is_answered: |answer| answer == Ok(None),
    },
    Kind {
        name: "single rooms",
        groups: |plan, random| single_rooms(plan.labels.len(), random),
        is_answered: |answer| matches!(answer, Ok(Some(_))),
    },
    Kind {
        name: "refused 27",
        groups: |plan, random| [single_rooms(plan.labels.len(), random)[0], [0; 32]],
        is_answered: |answer| answer == Err(Refusal::EmptyGroup),
    },
];

impl Kind {
    /// So many random plans of `n` rooms with groups of this kind. All versions
    /// answer them alike.
    pub fn plans(&self, count: usize, n: usize) -> Vec<GroupedPlan> {
        let mut random = Random::from_seed(n as u64);
        (0..count).map(|_| self.plan(n, &mut random)).collect()
    }

    fn plan(&self, n: usize, random: &mut Random) -> GroupedPlan {
        // Not every plan has groups that get the answer.
        loop {
            let walked = random_list(n, random);
            let plan = GroupedPlan::new(&walked, |plan| (self.groups)(plan, random));
            if (self.is_answered)(plan.answer()) {
                return plan;
            }
        }
    }
}
