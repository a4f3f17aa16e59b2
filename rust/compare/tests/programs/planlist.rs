//! What `planlist` prints, byte for byte.

use compare::{Program, Tally};
use reference::cases::walk::random_list;
use reference::cases::{baxter_lists_up_to, worked, Random};

#[test]
fn listing_printed_in_the_sheet() {
    let program = Program::planlist();
    assert_eq!(program.printed(&[&worked::LISTED]), worked::LISTING);

    let mut tally = Tally::new("listing printed in the sheet");
    tally.run(&program, &worked::LISTED);
    tally.finish(1);
}

#[test]
fn short_inputs() {
    let program = Program::planlist();
    let mut tally = Tally::new("listings of short inputs");
    tally.run(&program, &[]);
    for byte in 0..=255 {
        tally.run(&program, &[byte]);
        tally.run(&program, &[2, byte]);
        tally.run(&program, &[3, byte]);
    }
    assert_eq!(tally.accepted(), baxter_lists_up_to(3));
    tally.finish(1 + 3 * 256);
}

#[test]
fn inputs_that_come_in_pieces() {
    let program = Program::planlist();
    let mut tally = Tally::new("listings of inputs in pieces");
    let record = random_list(255, &mut Random::from_seed(124)).record();
    for border in [0, 1, 2, 50, 95, 96, 97] {
        let (front, back) = record.split_at(border);
        tally.run_in_pieces(&program, &[front, back]);
        tally.run_in_pieces(&program, &[front, back, &[0]]);
        tally.run_in_pieces(&program, &[front, back, &[0], &[0; 100]]);
    }
    tally.run_in_pieces(&program, &[&[0x05], &[0x31], &[0x70]]);
    assert_eq!(tally.accepted(), 7 + 1);
    tally.finish(7 * 3 + 1);
}
