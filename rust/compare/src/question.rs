//! The comparison of one case of the question.

use crate::floorplan::Floorplan;
use crate::given::AskedRecord;
use crate::lent::{Input, Surroundings, SURROUNDINGS};
use crate::of_library;
use crate::outcome::number;
use crate::tally::Tally;
use reference::{Chains, Contacts, Refusal, Relation, Room};

/// What a question is answered with.
pub type Answer = Result<(Relation, bool), Refusal>;

impl Tally {
    /// Asks the library, the definitions and the fast Rust version for two
    /// positions of a record, and gives the answer that all three agree on.
    ///
    /// # Panics
    ///
    /// If they differ, or one of them writes where the record stands, or if
    /// two rooms would be in a direct relation and not touch.
    pub fn question(&mut self, given: &AskedRecord, first: u8, second: u8) -> Answer {
        let answer = given.and_then(|questions| questions.answer(first, second));
        for around in SURROUNDINGS {
            compare(given, first, second, answer, around);
        }
        // Two rooms in a direct relation always touch.
        if let Ok((relation, touch)) = answer {
            let asked = (first, second);
            assert!(touch || !relation.direct, "{asked:?} of record {given}");
        }
        self.count(&answer);
        answer
    }

    /// Asks for two positions of a record where the answer is known.
    ///
    /// # Panics
    ///
    /// If the answer is another, or as [`Self::question`].
    pub fn expect_answer(&mut self, given: &AskedRecord, first: u8, second: u8, expected: Answer) {
        let answer = self.question(given, first, second);
        assert_eq!(answer, expected, "record {given}, {first} to {second}");
    }
}

/// A floorplan that questions are asked about.
#[derive(Debug)]
pub struct AskedPlan {
    /// The rooms.
    pub rooms: Vec<Room>,
    /// Which of them touch, by their own segments.
    pub contacts: Contacts,
    /// The chains of direct steps between them, by their own segments.
    pub chains: Chains,
    /// The record of the plan.
    pub record: AskedRecord,
    /// The position of each room, in list order.
    pub positions: Vec<u8>,
}

impl AskedPlan {
    /// The plan, whose record and positions are known.
    #[must_use]
    pub fn new(plan: &Floorplan) -> Self {
        let (rooms, numbering) = (plan.rooms(), plan.numbering());
        let contacts = Contacts::of(&rooms);
        Self {
            chains: contacts.chains(),
            contacts,
            rooms,
            record: AskedRecord::new(numbering.record),
            positions: numbering.positions,
        }
    }

    /// How two different rooms stand to each other and whether they touch, by
    /// their own segments. Each is named by its place in the list.
    #[must_use]
    pub fn standing(&self, first: usize, second: usize) -> (Relation, bool) {
        let relation = self.chains.relation(first, second);
        (relation, self.contacts.touch(first, second))
    }
}

impl Tally {
    /// Asks for two different rooms of a plan, each by its place in the list:
    /// for the plan's record and the rooms' positions. Gives the answer.
    ///
    /// # Panics
    ///
    /// If the plan's own segments and the chains along them say otherwise, or
    /// as [`Self::question`].
    pub fn question_of_rooms(
        &mut self,
        plan: &AskedPlan,
        first: usize,
        second: usize,
    ) -> (Relation, bool) {
        let [one, other] = [first, second].map(|place| plan.positions[place]);
        let standing = plan.standing(first, second);
        let answer = self.question(&plan.record, one, other);
        assert_eq!(answer, Ok(standing), "{one} to {other} of {:?}", plan.rooms);
        standing
    }
}

/// Holds the library and the fast Rust version to the answer of the
/// definitions.
fn compare(given: &AskedRecord, first: u8, second: u8, answer: Answer, around: Surroundings) {
    let lent = Input::new(&given.input, around);
    let record = lent.slice();
    let fast = reference::fast::question(record, first, second);
    let library = nenturxo::question(record, first, second);
    let expected = answer
        .map(|(relation, touch)| (of_library::relation(relation), touch))
        .map_err(number);
    assert!(
        fast == answer && library.map_err(|refusal| refusal.number()) == expected,
        "the versions differ\n\
         record      {given}\n\
         positions   {first} and {second}\n\
         library     {library:?}\n\
         definitions {answer:?}\n\
         fast        {fast:?}"
    );
    lent.expect_still(&given.input);
}
