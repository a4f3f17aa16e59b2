//! All numbers of rooms with all numbers of rises, counted or not.

use crate::help::COUNTED;
use compare::Tally;
use reference::Refusal;

#[test]
fn every_number_of_rooms_and_of_rises() {
    let mut tally = Tally::new("plan counts of every number of rooms and of rises");
    for n in 0..=255 {
        for rises in 0..=255 {
            let answer = tally.plan_count(n, rises);
            let is_0 = COUNTED.contains(&n) && rises >= n;
            assert_eq!(answer == Ok(0), is_0, "{n} rooms, {rises} rises");
        }
    }
    assert_eq!(tally.accepted(), 17 * 256);
    tally.expect_refused([Refusal::NotCounted], [239 * 256]);
    tally.finish(256 * 256);
}

#[test]
fn every_number_of_rooms() {
    let mut tally = Tally::new("plan totals of every number of rooms");
    for n in 0..=255 {
        let answer = tally.plan_total(n);
        assert_eq!(answer.is_ok(), COUNTED.contains(&n), "{n} rooms");
    }
    assert_eq!(tally.accepted(), 17);
    tally.expect_refused([Refusal::NotCounted], [239]);
    tally.finish(256);
}
