//! The comparison of one case of "Record in".

use crate::given::GivenRecord;
use crate::lent::{Surroundings, SURROUNDINGS};
use crate::outcome::{fitting, number, Answer, Outcome, Outcomes};
use crate::record_slices::{Capacities, Outputs};
use crate::tally::Tally;
use reference::{Refusal, Room};

impl Tally {
    /// Hands a record and output slices of the given lengths to the library,
    /// to the definitions and to the fast Rust version, and gives the answer
    /// that all three agree on.
    ///
    /// # Panics
    ///
    /// If they differ in their answer or in any entry in or around the slices.
    pub fn record_in(&mut self, given: &GivenRecord, capacities: Capacities) -> Answer {
        self.in_surroundings(|around| agreed(given, capacities, around))
    }

    /// Compares a record that is accepted where all slices are long enough,
    /// and else refused with 15.
    ///
    /// # Panics
    ///
    /// If the answer is another, or as [`Self::record_in`].
    pub fn expect_rooms(&mut self, given: &GivenRecord, capacities: Capacities) {
        let n = usize::from(given.input[0]);
        let expected = fitting(n, [n; 2], capacities);
        let answer = self.record_in(given, capacities);
        assert_eq!(answer, expected, "{given} into {capacities:?}");
    }

    /// Compares a record that must be accepted with the given labels: in
    /// slices of just the right length, in longer ones, and refused where one
    /// of them is shorter.
    ///
    /// # Panics
    ///
    /// If the answer is another, or as [`Self::record_in`].
    pub fn expect_labels(&mut self, record: &[u8], labels: &[u8]) {
        let given = GivenRecord::new(record);
        let plan = given.answer.as_ref();
        // That the library wrote the same labels is compared below.
        assert_eq!(plan.map(|plan| &*plan.labels), Ok(labels), "{given}");

        let n = labels.len();
        self.expect_rooms(&given, [n; 2]);
        self.expect_rooms(&given, [n + 3, n + 1]);
        // Which slice is the short one goes round with the records.
        let mut capacities = [n + 1; 2];
        capacities[record.iter().map(|&byte| usize::from(byte)).sum::<usize>() % 2] = n - 1;
        self.expect_rooms(&given, capacities);
    }

    /// Compares a record that must be refused with `refusal`, whatever the
    /// slices: with none to write to, with short ones and with long ones.
    ///
    /// # Panics
    ///
    /// If the answer is another, or as [`Self::record_in`].
    pub fn expect_refused_record(&mut self, record: &[u8], refusal: Refusal) {
        let given = GivenRecord::new(record);
        for capacities in [[0; 2], [3, 1], [255; 2]] {
            let answer = self.record_in(&given, capacities);
            assert_eq!(answer, Err(refusal), "{given} into {capacities:?}");
        }
    }

    /// Hands many records to the library that must all be refused with
    /// `refusal`, with one set of output slices for all. This is quicker, and
    /// leaves out the fast Rust version and the other surroundings.
    ///
    /// # Panics
    ///
    /// If a record is answered otherwise, or anything is written.
    pub fn expect_refused_records<const LENGTH: usize>(
        &mut self,
        records: impl Iterator<Item = [u8; LENGTH]>,
        refusal: Refusal,
    ) {
        let untouched = Outputs::new([5; 2], SURROUNDINGS[0]);
        let mut outputs = untouched.clone();
        let expected = (Err(refusal), Err(number(refusal)));
        for record in records {
            let defined = reference::plan_of(&record).map(|plan| plan.labels.len());
            let library = by_library(&record, &mut outputs);
            assert_eq!((defined, library), expected, "{record:02X?}");
            assert!(outputs == untouched, "{record:02X?} wrote {outputs}");
            self.count(&defined);
        }
    }
}

/// What the library answers a record with.
fn by_library(record: &[u8], outputs: &mut Outputs<nenturxo::Room>) -> Result<usize, u32> {
    let (labels, rooms) = outputs.slices();
    nenturxo::record_in(record, labels, rooms).map_err(|refusal| refusal.number())
}

/// The answer that the library and both Rust versions agree on.
fn agreed(given: &GivenRecord, capacities: Capacities, around: Surroundings) -> Answer {
    let record = &given.input[..];
    let outputs = || Outputs::<Room>::new(capacities, around);
    let mut answer = Err(Refusal::NoKind);
    let expected = Outcome::of(record, outputs(), around, |_, outputs| {
        let (labels, rooms) = outputs.slices();
        answer = given.and_then(|plan| plan.write(labels, rooms));
        answer.map_err(number)
    });
    let fast = Outcome::of(record, outputs(), around, |record, outputs| {
        let (labels, rooms) = outputs.slices();
        reference::fast::record_in(record, labels, rooms).map_err(number)
    });
    let outputs = Outputs::new(capacities, around);
    let outcomes = Outcomes {
        expected: expected.map(Outputs::of_library),
        fast: fast.map(Outputs::of_library),
        library: Outcome::of(record, outputs, around, by_library),
    };
    outcomes.agree(
        format_args!("record {given}, capacities {capacities:?}"),
        |outputs| outputs.are_clean_after(answer.unwrap_or(0)),
    );
    answer
}
