//! Plans that are cut again and again, also into pinwheels.

use compare::floorplan::some_box;
use compare::{Floorplan, Tally};
use reference::cases::Random;

/// A nested plan of `n` rooms, named and shuffled, and in some rounds slid.
fn some_plan(n: usize, round: usize, random: &mut Random) -> Floorplan {
    let outline = some_box(random);
    let mut plan = Floorplan::nested(n, outline, random);
    if round % 2 == 1 {
        plan.slide(20, random);
    }
    plan.name_and_shuffle(random);
    plan
}

#[test]
fn nested_plans_of_up_to_30_rooms() {
    let name = "nested plans of up to 30 rooms";
    Tally::in_threes(name, 101, 1500, |tally, random, round| {
        let n = random.between(1, 30);
        tally.defined_plan(&some_plan(n, round, random));
    });
}

#[test]
fn nested_plans_of_up_to_255_rooms() {
    let name = "nested plans of up to 255 rooms";
    Tally::in_threes(name, 102, 3000, |tally, random, round| {
        let n = match round % 3 {
            0 => 255,
            _ => random.between(31, 255),
        };
        tally.rooms(&some_plan(n, round, random).given());
    });
}

#[test]
fn nested_plans_of_255_rooms_by_the_definitions() {
    let name = "nested plans of 255 rooms, by the definitions";
    Tally::in_threes(name, 103, 16, |tally, random, round| {
        tally.defined_plan(&some_plan(255, round, random));
    });
}
