//! Drawings of Baxter lists: stretched, slid, shifted and shuffled they keep
//! their labels and positions.

use compare::{Floorplan, Tally};
use reference::cases::walk::{biased_list, list_in_turn};
use reference::cases::{baxter_lists, baxter_lists_up_to, Random};

/// The drawing of a list, moved about.
fn moved(labels: &[u8], slides: usize, random: &mut Random) -> Floorplan {
    let mut plan = Floorplan::drawn(labels);
    plan.move_about(slides, random);
    plan
}

#[test]
fn every_drawing_of_up_to_6_labels() {
    const ROUNDS: usize = 12;
    let name = "drawings of up to 6 labels, moved";
    let lists = (1..=6).flat_map(baxter_lists);
    let tally = Tally::of_rounds(name, 91, lists, |tally, random, labels| {
        let mut plan = Floorplan::drawn(&labels);
        for _ in 0..ROUNDS {
            tally.defined_plan(&plan);
            plan.move_about(6, random);
        }
    });
    tally.finish_in_threes(ROUNDS * baxter_lists_up_to(6));
}

#[test]
fn drawings_of_random_lists_of_up_to_40_labels() {
    let name = "drawings of up to 40 labels, moved";
    Tally::in_threes(name, 92, 600, |tally, random, _| {
        let n = random.between(7, 40);
        let labels = biased_list(n, random).labels;
        tally.defined_plan(&moved(&labels, n, random));
    });
}

#[test]
fn drawings_of_random_lists_of_up_to_255_labels() {
    let name = "drawings of up to 255 labels, moved";
    Tally::in_threes(name, 93, 8_000, |tally, random, round| {
        let n = match round % 4 {
            0 => random.between(240, 255),
            _ => random.between(1, 255),
        };
        let walked = list_in_turn(n, round, random);
        let plan = moved(&walked.labels, 8, random);
        assert_eq!(plan.numbering().record, walked.record());
        tally.rooms(&plan.given());
    });
}

#[test]
fn drawings_of_255_labels_by_the_definitions() {
    let name = "drawings of 255 labels, by the definitions";
    Tally::in_threes(name, 94, 24, |tally, random, round| {
        let labels = list_in_turn(255, round, random).labels;
        tally.defined_plan(&moved(&labels, 100, random));
    });
}
