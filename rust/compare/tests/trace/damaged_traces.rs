//! Traces with bytes changed, left out, put in or exchanged, which may or may not
//! be accepted.

use crate::help::some_trace;
use compare::{GivenTrace, Tally};
use reference::cases::Random;
use reference::Refusal;

/// Does some damage to bytes, of which there are at least two.
fn damage(bytes: &mut Vec<u8>, random: &mut Random) {
    let place = random.below(bytes.len());
    match random.below(8) {
        0 => bytes[place] = random.byte(),
        1 => bytes[place] = random.pick(&[0, 4, 7, 8]),
        2 | 3 => bytes[place] = random.pick(&[1, 2, 3]),
        4 => bytes[place] ^= 1 << random.below(8),
        5 => drop(bytes.remove(place)),
        6 => bytes.insert(place, random.pick(&[1, 2, 3])),
        _ => bytes.swap(place, 0),
    }
}

#[test]
fn traces_with_some_damage() {
    const TRACES: usize = 8_000;
    let name = "traces with some damage";
    let tally = Tally::of_rounds(name, 771, 0..TRACES, |tally, random, round| {
        let length = random.pick(&[9, 10, 30, 60, 123, 124, 125, 126, 300]);
        let mut bytes = some_trace(length, random).bytes;
        for _ in 0..random.pick(&[1, 1, 1, 2, 3]) {
            damage(&mut bytes, random);
        }
        let capacity = [bytes.len(), length / 2][round % 2];
        let _ = tally.trace(&GivenTrace::new(bytes), capacity);
    });
    let refusals = [
        Refusal::BadMove,
        Refusal::OnlyRoom,
        Refusal::RunMissing,
        Refusal::RunsLeft,
        Refusal::SliceShort,
    ];
    tally.expect_often(TRACES / 100, &refusals);
    assert!(tally.accepted() > TRACES / 10, "{}", tally.accepted());
    tally.finish(TRACES);
}

/// Damage far behind the front.
#[test]
fn long_traces_with_some_damage() {
    const TRACES: usize = 60;
    let name = "long traces with some damage";
    let tally = Tally::of_rounds(name, 772, 0..TRACES, |tally, random, _| {
        let length = random.between(2_000, 20_000);
        let mut bytes = some_trace(length, random).bytes;
        for _ in 0..random.pick(&[1, 1, 2]) {
            damage(&mut bytes, random);
        }
        let capacity = bytes.len();
        let _ = tally.trace(&GivenTrace::new(bytes), capacity);
    });
    tally.finish(TRACES);
}
