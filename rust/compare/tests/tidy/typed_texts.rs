//! Baxter lists of up to 255 labels, typed by many hands, and other lists.

use compare::text_damage::put_a_number_outside;
use compare::Tally;
use reference::cases::text::{mixed_text, typed_text};
use reference::cases::walk::{list_in_turn, mostly_small_count, random_list, some_count, Walked};
use reference::cases::Random;
use reference::{tidy_form, Refusal};

/// Compares three texts of a list, each in three cases. One of them is the
/// tidy form: tidying it changes nothing.
fn expect_tidy(tally: &mut Tally, walked: &Walked, random: &mut Random) {
    let tidy = tidy_form(&walked.labels);
    tally.expect_tidy(&typed_text(&walked.labels, random), &tidy);
    tally.expect_tidy(&mixed_text(&walked.labels, random), &tidy);
    tally.expect_tidy(&tidy, &tidy);
}

#[test]
fn random_baxter_lists_have_their_tidy_form() {
    const LISTS: usize = 4_000;
    let name = "typed Baxter lists";
    let tally = Tally::of_rounds(name, 201, 0..LISTS, |tally, random, round| {
        let n = some_count(random);
        expect_tidy(tally, &list_in_turn(n, round, random), random);
    });
    tally.finish_in_threes(3 * LISTS);
}

#[test]
fn lists_of_every_count() {
    const LISTS: usize = 4;
    let name = "typed lists of 1, 2, .. 255 labels";
    let tally = Tally::of_rounds(name, 202, 1..=255u8, |tally, random, n| {
        for walked in [Walked::rising(n), Walked::falling(n)] {
            expect_tidy(tally, &walked, random);
        }
        for _ in 0..LISTS - 2 {
            expect_tidy(tally, &random_list(n.into(), random), random);
        }
    });
    tally.finish_in_threes(3 * LISTS * 255);
}

#[test]
fn any_permutations_and_any_numbers() {
    const LISTS: usize = 8_000;
    let name = "typed permutations and numbers";
    let tally = Tally::of_rounds(name, 203, 0..LISTS, |tally, random, _| {
        let mut labels: Vec<u16> = (1..=u16::from(mostly_small_count(random))).collect();
        random.shuffle(&mut labels);
        let _ = tally.tidy(&typed_text(&labels, random), random.between(0, 1000));
        put_a_number_outside(&mut labels, random);
        let _ = tally.tidy(&typed_text(&labels, random), random.between(0, 1000));

        // Numbers with repeats, all of them labels or some of them not.
        let count = random.pick(&[0, 2, 3, 4, 5, 40, 254, 255, 256, 257, 300]);
        let greatest = random.pick(&[count.max(1), 255, 256, 999]) as u16;
        let numbers: Vec<u16> = (0..count).map(|_| random.number(1, greatest)).collect();
        let _ = tally.tidy(&typed_text(&numbers, random), random.between(0, 1000));
    });
    tally.expect_often(500, &Refusal::OF_TEXTS[1..]);
    assert!(tally.accepted() > 500, "{}", tally.accepted());
    tally.finish(3 * LISTS);
}
