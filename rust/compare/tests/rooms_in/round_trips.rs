//! There and back through the library alone, without the definitions.

use compare::rooms_in::library_numbering;
use compare::{of_library, repeat, report, Floorplan, LibraryPlan};
use reference::cases::walk::list_in_turn;
use reference::Room;

/// Takes rooms to their record, that to its drawing, and the drawing to its
/// record again; and then the same drawing with the names of the rooms.
fn there_and_back(rooms: &[Room]) {
    let numbering = library_numbering(&of_library::rooms(rooms));
    let numbering = numbering.expect("a floorplan is accepted");
    let plan = LibraryPlan::there_and_back(&numbering.record);
    let mut plan = plan.expect("a record of rooms is accepted");

    // Each room has the label and the name of its position there.
    let numbers = numbering.labels.iter().zip(&numbering.positions);
    for (room, (label, position)) in rooms.iter().zip(numbers) {
        let place = usize::from(*position) - 1;
        assert_eq!(plan.labels[place], *label, "{rooms:?}");
        assert_eq!(numbering.names[place], room.name, "{rooms:?}");
        plan.rooms[place].name = room.name;
    }
    // The drawing is by position, so its names come back as they stand.
    let again = library_numbering(&plan.rooms).expect("a drawing is accepted");
    assert_eq!(again.record, numbering.record, "{rooms:?}");
    assert_eq!(again.names, numbering.names, "{rooms:?}");
}

#[test]
fn drawings_of_random_lists() {
    const PLANS: usize = 6000;
    repeat(151, 0..PLANS, |random, round| {
        let n = random.between(1, 255);
        let mut plan = Floorplan::drawn(&list_in_turn(n, round, random).labels);
        plan.stretch(random);
        plan.name_and_shuffle(random);
        there_and_back(&plan.rooms());
    });
    report(format_args!("{PLANS} moved drawings came back"));
}

#[test]
fn nested_plans() {
    const PLANS: usize = 1000;
    let outline = Room::from([0, 0, u16::MAX, u16::MAX]);
    repeat(152, 0..PLANS, |random, _| {
        let n = random.between(1, 255);
        let mut plan = Floorplan::nested(n, outline, random);
        plan.name_and_shuffle(random);
        there_and_back(&plan.rooms());
    });
    report(format_args!("{PLANS} nested plans came back"));
}
