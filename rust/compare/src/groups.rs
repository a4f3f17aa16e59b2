//! The comparison of one case of "Groups".

use crate::given::GivenRecord;
use crate::lent::{shown, Input, Surroundings, SURROUNDINGS};
use crate::of_library;
use crate::outcome::number;
use crate::question::AskedPlan;
use crate::tally::Tally;
use reference::{positions_in, Group, Refusal, Side};

/// What two groups are answered with: a side, or `None` if they are mixed.
pub type Answer = Result<Option<Side>, Refusal>;

/// Two groups, the first one and the second one.
pub type Groups = [Group; 2];

impl Tally {
    /// Asks the library, the definitions and the fast Rust version for two
    /// groups of a record's rooms, and gives the answer that all three agree on.
    ///
    /// # Panics
    ///
    /// If they differ, or one of them writes where its input stands.
    pub fn groups(&mut self, given: &GivenRecord, groups: &Groups) -> Answer {
        let [first, second] = groups;
        let answer = given.and_then(|plan| plan.groups(first, second));
        self.groups_as(answer, &given.input, groups)
    }

    /// As [`Self::groups`], but leaves out the definitions, which take long for
    /// large plans.
    ///
    /// # Panics
    ///
    /// As there.
    pub fn groups_quickly(&mut self, record: &[u8], groups: &Groups) -> Answer {
        let [first, second] = groups;
        let answer = reference::fast::groups(record, first, second);
        self.groups_as(answer, record, groups)
    }

    /// Asks for two groups where the answer is known.
    ///
    /// # Panics
    ///
    /// If the answer is another, or as [`Self::groups`].
    pub fn expect_groups(&mut self, given: &GivenRecord, groups: &Groups, expected: Answer) {
        let answer = self.groups(given, groups);
        assert_eq!(answer, expected, "record {given}, {}", in_hex(groups));
    }

    /// Asks for two groups both ways round, where the answer is known, and so
    /// the one with the groups exchanged.
    ///
    /// # Panics
    ///
    /// If an answer is another, or as [`Self::groups`].
    pub fn expect_both_ways(&mut self, given: &GivenRecord, groups: &Groups, expected: Answer) {
        let [first, second] = *groups;
        self.expect_groups(given, groups, expected);
        let back = expected.map(|side| side.map(Side::opposite));
        self.expect_groups(given, &[second, first], back);
    }

    /// Asks for two groups of rooms of a plan, neither of which is empty: for the
    /// plan's record. Gives the answer.
    ///
    /// # Panics
    ///
    /// If the chains along the plan's own segments say otherwise, or as
    /// [`Self::groups`].
    pub fn groups_of_rooms(&mut self, plan: &AskedPlan, groups: &Groups) -> Option<Side> {
        let [first, second] = groups.each_ref().map(|group| plan.rooms_in(group));
        let are_on = |&side: &Side| {
            let is_on = |one: usize, other: usize| plan.chains.relation(one, other).side == side;
            let mut ones = first.iter();
            ones.all(|&one| second.iter().all(|&other| is_on(one, other)))
        };
        let side = Side::ALL.into_iter().find(are_on);
        let answer = plan.record.and_then(|questions| {
            let [first, second] = groups;
            questions.plan().groups(first, second)
        });
        assert_eq!(answer, Ok(side), "{} of {:?}", in_hex(groups), plan.rooms);
        let _ = self.groups_as(answer, &plan.record.input, groups);
        side
    }

    fn groups_as(&mut self, answer: Answer, record: &[u8], groups: &Groups) -> Answer {
        for around in SURROUNDINGS {
            compare(record, groups, answer, around);
        }
        self.count(&answer);
        answer
    }
}

impl AskedPlan {
    /// The rooms whose positions are in a group, each by its place in the list.
    fn rooms_in(&self, group: &Group) -> Vec<usize> {
        let positions = positions_in(group);
        let is_in = |&place: &usize| positions.contains(&self.positions[place].into());
        (0..self.rooms.len()).filter(is_in).collect()
    }
}

/// Holds the library and the fast Rust version to the answer.
fn compare(record: &[u8], groups: &Groups, answer: Answer, around: Surroundings) {
    let lent = Input::new(record, around);
    let lent_groups = groups.map(|group| Input::new(&group, around));
    let [first, second] = lent_groups.each_ref().map(as_lent);
    let fast = reference::fast::groups(lent.slice(), first, second);
    let library = nenturxo::groups(lent.slice(), first, second);
    let expected = answer
        .map(|side| side.map(of_library::side))
        .map_err(number);
    assert!(
        fast == answer && library.map_err(|refusal| refusal.number()) == expected,
        "the versions differ\n\
         record   [{}]\n\
         groups   {}\n\
         library  {library:?}\n\
         expected {answer:?}\n\
         fast     {fast:?}",
        shown(record),
        in_hex(groups)
    );
    lent.expect_still(record);
    for (lent, group) in lent_groups.iter().zip(groups) {
        lent.expect_still(group);
    }
}

/// The lent bytes themselves, not a copy.
fn as_lent(group: &Input<u8>) -> &Group {
    group.slice().try_into().expect("the bytes of a group")
}

/// Two groups as they are printed.
fn in_hex([first, second]: &Groups) -> String {
    format!("[{}] and [{}]", shown(first), shown(second))
}
