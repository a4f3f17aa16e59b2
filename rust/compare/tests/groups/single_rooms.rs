//! "For two groups of one room each this is the old relation without the word
//! direct."

use crate::help::groups_of;
use compare::{GivenRecord, Tally};
use reference::cases::walk::{list_in_turn, Walked};
use reference::Refusal;

/// Asks for every pair of positions as groups, equal ones too, and holds the
/// answers to those of the library's question.
fn ask_every_pair(tally: &mut Tally, given: &GivenRecord) {
    let n = given.input[0];
    for first in 1..=n {
        for second in 1..=n {
            let groups = groups_of(&[first.into()], &[second.into()]);
            let answer = match tally.groups(given, &groups) {
                Ok(side) => Ok(side.expect("single rooms are not mixed")),
                Err(refusal) => Err(u32::from(refusal.number())),
            };
            let asked = nenturxo::question(&given.input, first, second);
            let side = asked.map(|(relation, _)| relation.side);
            assert_eq!(
                answer.map(compare::of_library::side),
                side.map_err(|refusal| refusal.number()),
                "{first} to {second} of {given}"
            );
        }
    }
}

#[test]
fn every_pair_of_random_plans() {
    const PLANS: usize = 150;
    let name = "pairs of random plans as groups";
    let mut equal = 0;
    let tally = Tally::of_rounds(name, 611, 0..PLANS, |tally, random, round| {
        let n = random.between(1, 60);
        let given = GivenRecord::new(list_in_turn(n, round, random).record());
        ask_every_pair(tally, &given);
        equal += n;
    });
    tally.expect_refused([Refusal::PositionsEqual], [equal]);
    assert_eq!(tally.accepted(), tally.cases() - equal);
    tally.finish(100_000);
}

#[test]
fn every_pair_of_some_plans_of_255_rooms() {
    let name = "pairs of 255 rooms as groups";
    let tally = Tally::of_rounds(name, 612, 0..2, |tally, random, round| {
        let [most_runs, _] = Walked::with_128_runs();
        let walked = [list_in_turn(255, 0, random), most_runs][round].clone();
        ask_every_pair(tally, &GivenRecord::new(walked.record()));
    });
    tally.expect_refused([Refusal::PositionsEqual], [2 * 255]);
    tally.finish(2 * 255 * 255);
}
