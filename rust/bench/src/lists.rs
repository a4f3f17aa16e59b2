//! Label lists with and without a barred pattern.

use compare::of_library;
use reference::cases::barred::BarredList;
use reference::cases::walk::random_list;
use reference::cases::Random;
use reference::{fast, Condition, Pattern};

/// A kind of label lists, and whether they have a pattern.
pub struct Kind {
    pub name: &'static str,
    list: fn(usize, &mut Random) -> Vec<u8>,
    has_pattern: bool,
}

/// The kinds: Baxter lists, whose labels have all to be looked at; labels in
/// any order, of which the first few are enough; Baxter lists but for the last
/// four labels; and lists in which nearly every label is far from the next ones,
/// with a pattern in the middle.
pub const LISTS: [Kind; 4] = [
    Kind {
        name: "no pattern",
        list: |n, random| random_list(n, random).labels,
        has_pattern: false,
    },
    Kind {
        name: "random",
        list: random_barred,
        has_pattern: true,
    },
    Kind {
        name: "at the end",
        list: |n, random| {
            let condition = some_condition(random);
            BarredList::at_the_end(n, condition, 0, random).labels
        },
        has_pattern: true,
    },
    Kind {
        name: "far neighbours",
        list: |n, random| {
            let condition = some_condition(random);
            let list = BarredList::after_long_ways(n, condition, random);
            match random.below(2) {
                0 => list.labels,
                _ => list.counted_down().labels,
            }
        },
        has_pattern: true,
    },
];

fn some_condition(random: &mut Random) -> Condition {
    random.pick(&[Condition::First, Condition::Second])
}

/// The labels 1 to `n`, at least 4, in a random order that has a pattern.
pub fn random_barred(n: usize, random: &mut Random) -> Vec<u8> {
    let mut labels: Vec<u8> = (1..=255).take(n).collect();
    loop {
        random.shuffle(&mut labels);
        if answer(&labels).is_some() {
            return labels;
        }
    }
}

impl Kind {
    /// So many random lists of this kind. Both versions answer them alike.
    pub fn lists(&self, count: usize, n: usize) -> Vec<Vec<u8>> {
        let mut random = Random::from_seed(n as u64);
        let lists: Vec<Vec<u8>> = (0..count).map(|_| (self.list)(n, &mut random)).collect();
        for labels in &lists {
            assert_eq!(answer(labels).is_some(), self.has_pattern, "{labels:?}");
        }
        lists
    }
}

/// The pattern that both versions name, if any. They must agree, and must not
/// refuse the list.
pub fn answer(labels: &[u8]) -> Option<Pattern> {
    let answer = fast::pattern(labels).expect("each label is there once");
    let library = nenturxo::pattern(labels);
    assert_eq!(library, Ok(answer.map(of_library::pattern)), "{labels:?}");
    answer
}
