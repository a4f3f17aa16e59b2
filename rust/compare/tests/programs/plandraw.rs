//! What the pictures of `plandraw` show, against the drawing of the sheet.

use compare::plandraw::worked_picture;
use compare::{Program, Tally};
use reference::cases::walk::random_list;
use reference::cases::{baxter_lists, baxter_lists_up_to, worked, Random};
use reference::{record_of, triples};

#[test]
fn picture_in_the_documents() {
    let printed = Program::plandraw().printed(&[&worked::LISTED]);
    assert_eq!(printed, worked_picture());
}

#[test]
fn every_record_of_up_to_5_rooms() {
    let program = Program::plandraw();
    let mut tally = Tally::new("pictures of up to 5 rooms");
    for n in 1..=5 {
        for labels in baxter_lists(n) {
            tally.run(&program, &record_of(n, &triples(&labels)));
        }
    }
    assert_eq!(tally.accepted(), baxter_lists_up_to(5));
    tally.finish(123);
}

#[test]
fn inputs_that_come_in_pieces() {
    let program = Program::plandraw();
    let mut tally = Tally::new("pictures of inputs in pieces");
    let record = random_list(255, &mut Random::from_seed(144)).record();
    let (front, back) = record.split_at(50);
    tally.run_in_pieces(&program, &[front, back]);
    tally.run_in_pieces(&program, &[front, back, &[0]]);
    tally.run_in_pieces(&program, &[&[0x05], &[0x31], &[0x70]]);
    assert_eq!(tally.accepted(), 2);
    tally.finish(3);
}
