//! What the calls are timed with.

use crate::groups::GroupedPlan;
use crate::outputs::Drawing;
use crate::room_list::RoomList;
use crate::sizes::SizedPlan;
use crate::{lists, shapes, texts, traces};
use compare::{of_library, Floorplan};
use reference::cases::names::random_names;
use reference::cases::slicing::SlicingPlan;
use reference::cases::text::mixed_text;
use reference::cases::trace::Draft;
use reference::cases::walk::random_list;
use reference::cases::Random;
use reference::Numbering;

/// A plan, as each call takes it. Each call accepts it, so that every step is
/// walked and every result written. But no plan has a pattern: for that call
/// there is another label list.
pub struct Case {
    pub labels: Vec<u8>,
    pub record: Vec<u8>,
    /// The drawing of the record, stretched and shuffled. All rooms are named,
    /// at random and no two alike: then every name has to be looked at.
    pub list: RoomList,
    numbering: Numbering,
    /// The labels as text, typed by many hands.
    pub text: Vec<u8>,
    /// The record of a slicing plan with as many rooms, and its cutting tree.
    pub slicing: Vec<u8>,
    tree: Vec<u8>,
    /// As many labels in a random order with a barred pattern, if there are 4.
    pub barred: Vec<u8>,
    /// The plan with random sizes.
    pub sized: SizedPlan,
    /// The plan with two related groups of its rooms.
    pub grouped: GroupedPlan,
    /// The trace that adds the plan's rooms and ends with a claim.
    pub trace: Draft,
    /// Two positions to ask for.
    pub first: u8,
    pub second: u8,
}

impl Case {
    /// A random plan of `n` rooms, at least 2, and a random pair of positions.
    pub fn random(n: usize, random: &mut Random) -> Self {
        let walked = random_list(n, random);
        let mut positions = walked.labels.clone();
        random.shuffle(&mut positions);
        let mut plan = Floorplan::drawn(&walked.labels);
        plan.stretch(random);
        plan.shuffle(random);
        // Copies of the generator, so that the plans are the same as without
        // names, texts, trees, patterns, sizes and groups.
        plan.put_names(&random_names(n, &mut random.clone()));
        let slicing = SlicingPlan::random(n, &mut random.clone());
        Self {
            text: mixed_text(&walked.labels, &mut random.clone()),
            slicing: slicing.record(),
            tree: slicing.tree.bytes(),
            barred: lists::random_barred(n, &mut random.clone()),
            sized: SizedPlan::random(&walked, &mut random.clone()),
            grouped: GroupedPlan::related(&walked, &mut random.clone()),
            trace: traces::of_plan(&walked),
            record: walked.record(),
            labels: walked.labels,
            list: RoomList::new(plan.rooms()),
            numbering: plan.numbering(),
            first: positions[0],
            second: positions[1],
        }
    }

    /// Stops unless both versions of each call accept the case with the same
    /// result.
    pub fn check(&self) {
        self.check_labels_in();
        self.check_record_in();
        self.check_rooms_in();
        self.check_question();
        self.check_tidy();
        self.check_tree();
        self.check_pattern();
        self.sized.check();
        let side = self.grouped.answer();
        assert!(matches!(side, Ok(Some(_))), "{:02X?}", self.record);
        traces::check(&self.trace);
    }

    fn check_labels_in(&self) {
        let mut library = [0; nenturxo::RECORD_CAPACITY];
        let mut rust = library;
        let lengths = (
            nenturxo::labels_in(&self.labels, &mut library).ok(),
            reference::fast::labels_in(&self.labels, &mut rust).ok(),
        );
        let length = self.record.len();
        assert_eq!(lengths, (Some(length), Some(length)), "{:?}", self.labels);
        assert_eq!(library[..length], self.record, "{:?}", self.labels);
        assert_eq!(library, rust, "{:?}", self.labels);
    }

    fn check_record_in(&self) {
        let (mut library, mut rust) = (Drawing::of_library(), Drawing::of_rust());
        let counts = (
            library.by_library(&self.record).ok(),
            rust.by_tuned(&self.record).ok(),
        );
        let n = self.labels.len();
        assert_eq!(counts, (Some(n), Some(n)), "{:02X?}", self.record);
        assert_eq!(library.labels[..n], self.labels, "{:02X?}", self.record);
        assert_eq!(library.labels, rust.labels, "{:02X?}", self.record);
        let rooms = rust.rooms.map(of_library::room);
        assert_eq!(library.rooms, rooms, "{:02X?}", self.record);
    }

    fn check_rooms_in(&self) {
        let rooms = &self.list.rooms;
        let numbers = self.list.answer().expect("a floorplan is accepted");
        let (n, length) = (rooms.len(), self.record.len());
        assert_eq!(numbers.record[..length], self.record, "{rooms:?}");
        assert_eq!(numbers.labels[..n], self.numbering.labels, "{rooms:?}");
        assert_eq!(numbers.positions[..n], self.numbering.positions);
        assert_eq!(numbers.names[..n], self.numbering.names, "{rooms:?}");
    }

    fn check_question(&self) {
        let (first, second) = (self.first, self.second);
        let library = nenturxo::question(&self.record, first, second).ok();
        let rust = reference::fast::question(&self.record, first, second).ok();
        let rust = rust.map(|(relation, touch)| (of_library::relation(relation), touch));
        assert!(library.is_some(), "{:02X?} is refused", self.record);
        assert_eq!(library, rust, "{first}, {second} of {:02X?}", self.record);
    }

    fn check_tidy(&self) {
        let answer = texts::answer(&self.text);
        assert_eq!(answer, Ok(reference::tidy_form(&self.labels)));
    }

    fn check_tree(&self) {
        let answer = shapes::answer(&self.slicing);
        assert_eq!(answer.as_ref(), Ok(&self.tree), "{:02X?}", self.slicing);
    }

    fn check_pattern(&self) {
        let named = lists::answer(&self.barred);
        assert!(named.is_some(), "{:?}", self.barred);
    }
}
