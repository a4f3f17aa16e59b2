//! Two accepted texts have the same tidy form exactly if they list the same
//! labels in the same order, which is where the grid drawings of their labels
//! are equivalent.

use compare::label_damage::two_places;
use compare::tidy::library_tidy;
use compare::{repeat, report};
use reference::cases::text::typed_text;
use reference::cases::walk::{random_list, some_count};
use reference::cases::{baxter_lists, Random};
use reference::{drawing, equivalent, numbers_in};

/// Compares two texts that are accepted, and says whether they have the same
/// tidy form.
fn compare(a: &[u8], b: &[u8]) -> bool {
    let [of_a, of_b] = [a, b].map(library_tidy);
    assert!(of_a.is_ok() && of_b.is_ok(), "{a:?} and {b:?}");
    let same = of_a == of_b;
    assert_eq!(same, numbers_in(a) == numbers_in(b), "{a:?} and {b:?}");
    same
}

/// Compares the texts of two Baxter lists, each typed anew, and their grid
/// drawings.
fn compare_drawings(a: &[u8], b: &[u8], random: &mut Random) -> bool {
    let same = compare(&typed_text(a, random), &typed_text(b, random));
    assert_eq!(same, equivalent(&drawing(a), &drawing(b)), "{a:?}, {b:?}");
    same
}

#[test]
fn all_pairs_of_lists_of_up_to_4_labels() {
    const ROUNDS: usize = 8;
    let mut random = Random::from_seed(241);
    let lists: Vec<Vec<u8>> = (1..=4).flat_map(baxter_lists).collect();
    let (mut pairs, mut same) = (0, 0);
    for a in &lists {
        for b in &lists {
            for _ in 0..ROUNDS {
                same += usize::from(compare_drawings(a, b, &mut random));
                pairs += 1;
            }
        }
    }
    report(format_args!(
        "{pairs} pairs of texts of up to 4 labels, {same} same"
    ));
    assert_eq!(pairs, ROUNDS * 31 * 31);
    assert_eq!(same, ROUNDS * 31);
}

#[test]
fn pairs_of_lists_of_5_to_7_labels() {
    const PAIRS: usize = 500;
    let mut same = 0;
    repeat(242, 0..PAIRS, |random, round| {
        let n = [5, 5, 5, 6, 6, 7][round % 6];
        let labels = random_list(n, random).labels;
        let other = random_list(n, random).labels;
        assert!(compare_drawings(&labels, &labels, random), "{labels:?}");
        same += usize::from(compare_drawings(&labels, &other, random));
    });
    report(format_args!(
        "{} pairs of texts of 5 to 7 labels, {} same",
        2 * PAIRS,
        PAIRS + same
    ));
    assert!(same < PAIRS / 10, "most pairs of random lists differ");
}

/// Long texts that differ in little: of a list, and of the same with two labels
/// that trade places where that is accepted.
#[test]
fn pairs_of_long_lists_that_differ_in_two_labels() {
    const PAIRS: usize = 3_000;
    let mut different = 0;
    repeat(243, 0..PAIRS, |random, _| {
        let mut labels = random_list(some_count(random).max(2), random).labels;
        let text = typed_text(&labels, random);
        assert!(compare(&text, &typed_text(&labels, random)), "{labels:?}");
        let (one, other) = two_places(&labels, random);
        labels.swap(one, other);
        let traded = typed_text(&labels, random);
        if library_tidy(&traded).is_ok() {
            assert!(!compare(&text, &traded), "{labels:?}");
            different += 1;
        }
    });
    report(format_args!(
        "{PAIRS} pairs of texts of the same labels, {different} of others"
    ));
    assert!(different > PAIRS / 50, "only {different} pairs differ");
}
