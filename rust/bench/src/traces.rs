//! Traces.

use compare::of_library;
use reference::cases::trace::{Draft, Habits, ONE_RUN};
use reference::cases::walk::{random_list, Walked};
use reference::cases::Random;
use reference::{fast, TRACE_LENGTH};

/// A kind of traces.
pub struct Kind {
    pub name: &'static str,
    /// So many different ones are timed.
    count: usize,
    draft: fn(&mut Random) -> Draft,
}

/// The kinds: rooms that are added and taken away at random, so that no move can
/// be foreseen; up to 255 rooms and down to one again; a room that is added and
/// taken away; claims, and few other moves; each of them as long as can be. And
/// the rooms of a plan that are added one after another.
pub const TRACES: [Kind; 5] = [
    Kind {
        name: "random walk",
        count: 4,
        draft: |random| Draft::random(TRACE_LENGTH, Habits::new(1, 1, 0), random),
    },
    Kind {
        name: "up and down",
        count: 4,
        draft: |random| Draft::up_and_down(254, TRACE_LENGTH, random),
    },
    Kind {
        name: "alternating",
        count: 4,
        draft: |random| Draft::alternating(100, TRACE_LENGTH, random),
    },
    Kind {
        name: "mostly claims",
        count: 4,
        draft: |random| {
            let habits = Habits::new(1, 1, 50).with(ONE_RUN);
            Draft::random(TRACE_LENGTH, habits, random)
        },
    },
    Kind {
        name: "only adds",
        count: 512,
        draft: |random| Draft::of(&random_list(255, random)),
    },
];

impl Kind {
    /// Random traces of this kind, and how many moves they have in the mean. Both
    /// versions answer them alike.
    pub fn traces(&self) -> (Vec<Vec<u8>>, usize) {
        let mut random = Random::from_seed(self.count as u64);
        let drafts: Vec<Draft> = (0..self.count).map(|_| (self.draft)(&mut random)).collect();
        drafts.iter().for_each(check);
        let moves = drafts
            .iter()
            .map(|draft| draft.entries.len())
            .sum::<usize>();
        let traces = drafts.into_iter().map(|draft| draft.bytes);
        (traces.collect(), moves / self.count)
    }
}

/// The trace that adds the rooms of a plan and claims that one run is left.
pub fn of_plan(walked: &Walked) -> Draft {
    let mut draft = Draft::of(walked);
    draft.claim();
    draft
}

/// Stops unless both versions accept a trace and write what is known.
pub fn check(draft: &Draft) {
    let expected = draft.answer();
    let [mut states, mut same] = [vec![0; expected.moves], vec![0; expected.moves]];
    let library = nenturxo::trace(&draft.bytes, &mut states).ok();
    assert_eq!(library, Some(of_library::traced(expected)));
    assert!(states == draft.entries, "the library's entries differ");
    assert_eq!(fast::trace(&draft.bytes, &mut same), Ok(expected));
    assert!(same == draft.entries, "the entries differ");
}
