//! Where the groups stand: at every address, in one buffer, and both in one
//! place. That nothing around them changes, and nothing in them, is part of every
//! comparison.

use crate::help::groups_of;
use compare::report;
use nenturxo::{Refusal, Side};
use reference::cases::groups::some_groups;
use reference::cases::walk::{list_in_turn, Walked};
use reference::cases::Random;
use reference::{plan_of, Group};

/// The bytes of a group in a buffer.
fn at(buffer: &[u8], place: usize) -> &Group {
    buffer[place..].first_chunk().expect("32 bytes")
}

#[test]
fn groups_at_every_address_in_one_buffer() {
    let mut random = Random::from_seed(671);
    let mut calls = 0;
    for round in 0..8 {
        let n = random.pick(&[5, 60, 255]);
        let record = list_in_turn(n, round, &mut random).record();
        let plan = plan_of(&record).expect("walks are accepted");
        let [first, second] = some_groups(&plan, &mut random);
        let expected = plan.groups(&first, &second).expect("groups of rooms");
        let expected = expected.map(compare::of_library::side);
        for start in 0..16 {
            // So far from each other, and the record right behind.
            for gap in 0..16 {
                let mut buffer = vec![0xff; start];
                buffer.extend(first);
                buffer.extend(vec![0xff; gap]);
                let there = buffer.len();
                buffer.extend(second);
                let behind = buffer.len();
                buffer.extend(&record);
                let before = buffer.clone();
                let (one, other) = (at(&buffer, start), at(&buffer, there));
                let side = nenturxo::groups(&buffer[behind..], one, other);
                assert_eq!(side, Ok(expected), "{start}, {gap}");
                let back = nenturxo::groups(&buffer[behind..], other, one);
                let opposite = expected.map(Side::opposite);
                assert_eq!(back, Ok(opposite), "{start}, {gap}");
                assert_eq!(buffer, before);
                calls += 2;
            }
        }
    }
    report(format_args!("{calls} calls with groups at every address"));
}

/// Groups are only read, so both may be the same bytes, or have bytes in common.
#[test]
fn groups_in_one_place() {
    let record = [0x05, 0x31, 0x70];
    let [some, none] = groups_of(&[2, 3], &[]);
    let refused = |group: &Group| nenturxo::groups(&record, group, group);
    assert_eq!(refused(&some), Err(Refusal::POSITIONS_EQUAL));
    assert_eq!(refused(&none), Err(Refusal::EMPTY_GROUP));
    assert_eq!(refused(&[0x20; 32]), Err(Refusal::POSITION_OUTSIDE));

    // A row of 255 rooms: position 2, and from the next byte on position 249.
    let row = Walked::rising(255).record();
    let mut bytes = [0; 33];
    (bytes[0], bytes[32]) = (0x02, 0x01);
    let (one, other) = (at(&bytes, 0), at(&bytes, 1));
    assert_eq!(nenturxo::groups(&row, one, other), Ok(Some(Side::Left)));
    assert_eq!(nenturxo::groups(&row, other, one), Ok(Some(Side::Right)));
    report("5 calls with groups in one place");
}
