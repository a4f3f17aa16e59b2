//! Random lists of up to 255 labels.

use crate::help::Named;
use compare::label_damage::two_places;
use compare::Tally;
use reference::cases::barred::counted_down;
use reference::cases::walk::{list_in_turn, mostly_small_count, some_count};
use reference::cases::Random;
use reference::{Pattern, Refusal};

/// The labels 1 to `n` in a random order.
fn permutation(n: usize, random: &mut Random) -> Vec<u8> {
    let mut labels: Vec<u8> = (1..=255).take(n).collect();
    random.shuffle(&mut labels);
    labels
}

/// Compares a list, and the same list counted from the other end, on which the
/// same positions meet the other condition.
fn compare_from_both_ends(tally: &mut Tally, named: &mut Named, labels: &[u8]) {
    let answer = tally.pattern(labels);
    named.count(answer);
    let turned = answer.map(|pattern| {
        pattern.map(|pattern| Pattern {
            condition: pattern.condition.other(),
            ..pattern
        })
    });
    tally.expect_pattern(&counted_down(labels), turned);
}

#[test]
fn permutations_of_255_labels() {
    const LISTS: usize = 1_500;
    let mut named = Named::default();
    let name = "permutations of 255 labels";
    let tally = Tally::of_rounds(name, 401, 0..LISTS, |tally, random, _| {
        compare_from_both_ends(tally, &mut named, &permutation(255, random));
    });
    // That one of them is Baxter does not happen.
    assert_eq!(named.none, 0);
    assert!(
        named.first > LISTS / 3 && named.second > LISTS / 3,
        "{named:?}"
    );
    assert_eq!(tally.accepted(), 2 * LISTS);
    tally.finish(2 * LISTS);
}

#[test]
fn permutations_of_any_number_of_labels() {
    const LISTS: usize = 6_000;
    let mut named = Named::default();
    let name = "permutations of 1 to 255 labels";
    let tally = Tally::of_rounds(name, 402, 0..LISTS, |tally, random, round| {
        let n = [some_count(random), random.between(1, 12)][round % 2];
        compare_from_both_ends(tally, &mut named, &permutation(n, random));
    });
    named.expect_often(LISTS / 20);
    assert_eq!(tally.accepted(), 2 * LISTS);
    tally.finish(2 * LISTS);
}

#[test]
fn baxter_lists_have_no_pattern() {
    const LISTS: usize = 10_000;
    let name = "Baxter lists of 1 to 255 labels";
    let tally = Tally::of_rounds(name, 403, 0..LISTS, |tally, random, round| {
        let labels = list_in_turn(some_count(random), round, random).labels;
        tally.expect_pattern(&labels, Ok(None));
        // For long lists the definitions take long.
        let labels = list_in_turn(random.between(1, 24), round, random).labels;
        assert_eq!(tally.pattern(&labels), Ok(None), "{labels:?}");
    });
    assert_eq!(tally.accepted(), 2 * LISTS);
    tally.finish(2 * LISTS);
}

#[test]
fn baxter_lists_of_255_labels_by_the_definitions() {
    const LISTS: usize = 4;
    let name = "Baxter lists of 255 labels, all positions searched";
    let tally = Tally::of_rounds(name, 404, 0..LISTS, |tally, random, round| {
        let labels = list_in_turn(255, round, random).labels;
        assert_eq!(tally.pattern(&labels), Ok(None), "{labels:?}");
    });
    tally.finish(LISTS);
}

/// Baxter lists in which a few labels have changed places: the first pattern is
/// anywhere, if there is one.
fn compare_traded(name: &'static str, seed: u64, longest: usize, by_definitions: bool) {
    const LISTS: usize = 6_000;
    let mut named = Named::default();
    let mut begins = [0; 4];
    let tally = Tally::of_rounds(name, seed, 0..LISTS, |tally, random, round| {
        let n = random.between(longest / 2, longest);
        let mut labels = list_in_turn(n, round, random).labels;
        for _ in 0..1 + round % 3 {
            let (one, other) = two_places(&labels, random);
            let near = (one + 1).min(n - 1);
            labels.swap(one, [other, near][round / 2 % 2]);
        }
        let answer = if by_definitions {
            tally.pattern(&labels)
        } else {
            tally.pattern_quickly(&labels)
        };
        named.count(answer);
        if let Ok(Some(pattern)) = answer {
            begins[4 * (usize::from(pattern.i) - 1) / n] += 1;
        }
    });
    named.expect_often(LISTS / 20);
    // In each quarter of the list, though there are few in the last one.
    let least = begins.into_iter().min();
    assert!(least > Some(LISTS / 400), "{begins:?}");
    tally.finish(LISTS);
}

#[test]
fn baxter_lists_with_labels_traded() {
    compare_traded("up to 30 labels, some traded", 405, 30, true);
    compare_traded("up to 255 labels, some traded", 406, 255, false);
}

#[test]
fn random_bytes_and_entries_with_repeats() {
    const LISTS: usize = 10_000;
    let name = "random bytes and entries with repeats";
    let tally = Tally::of_rounds(name, 407, 0..LISTS, |tally, random, _| {
        let n = usize::from(mostly_small_count(random));
        let _ = tally.pattern(&permutation(n, random));

        let length = random.between(0, 300);
        let bytes: Vec<u8> = (0..length).map(|_| random.byte()).collect();
        let _ = tally.pattern(&bytes);

        // Entries that are all in range, drawn with repeats.
        let n = random.pick(&[2, 3, 4, 5, 6, 62, 63, 64, 65, 255]);
        let drawn: Vec<u8> = (0..n).map(|_| random.byte() % n + 1).collect();
        let _ = tally.pattern(&drawn);
    });
    tally.expect_often(1_000, &Refusal::OF_PATTERNS);
    assert!(tally.accepted() > LISTS);
    tally.finish(3 * LISTS);
}
