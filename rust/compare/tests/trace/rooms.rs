//! Plans of 255 rooms, where no more can be added, and of one, which cannot be
//! taken away.

use crate::help::{expect_known, refused, traced};
use compare::{GivenTrace, Tally};
use reference::cases::trace::{Draft, Habits, ALL_TRIPLES};
use reference::cases::walk::{list_in_turn, Walked};
use reference::Refusal;

/// A trace and some bytes more.
fn with(draft: &Draft, more: &[u8]) -> GivenTrace {
    GivenTrace::new([&draft.bytes[..], more].concat())
}

#[test]
fn the_256th_room() {
    const PLANS: usize = 20;
    let name = "the 256th room";
    let tally = Tally::of_rounds(name, 721, 0..PLANS, |tally, random, round| {
        let full = Draft::of(&list_in_turn(255, round, random));
        expect_known(tally, &full);
        for triple in 0..=7 {
            let given = with(&full, &[1, triple]);
            tally.expect_refused_trace(&given, full.refused(Refusal::ListLength));
        }
        // One can be taken away and another one added, but not two.
        let mut other = full.clone();
        other.take_away();
        let triples: Vec<u8> = ALL_TRIPLES
            .iter()
            .copied()
            .filter(|&t| other.allows(t))
            .collect();
        other.add(random.pick(&triples));
        expect_known(tally, &other);
        let given = with(&other, &[1, 2]);
        tally.expect_refused_trace(&given, other.refused(Refusal::ListLength));
    });
    tally.expect_refused([Refusal::ListLength], [PLANS * 9 * 3]);
    tally.finish(PLANS * (2 * 4 + 9 * 3));
}

/// Whatever was taken away before: rooms count, not moves.
#[test]
fn the_256th_room_after_many_moves() {
    const TRACES: usize = 40;
    let name = "the 256th room after many moves";
    let tally = Tally::of_rounds(name, 722, 0..TRACES, |tally, random, _| {
        let length = random.between(500, 3_000);
        let mut draft = Draft::random(length, Habits::new(5, 3, 1), random);
        while draft.rooms() < 255 {
            let next = draft.bytes.len() + 2;
            draft.go_on_to(next, Habits::new(1, 0, 0), random);
        }
        let given = with(&draft, &[1, random.pick(ALL_TRIPLES), 3]);
        tally.expect_refused_trace(&given, draft.refused(Refusal::ListLength));
        draft.go_on_to(draft.bytes.len() + 100, Habits::new(2, 1, 1), random);
        expect_known(tally, &draft);
    });
    tally.finish(TRACES * (3 + 4));
}

#[test]
fn the_only_room() {
    let name = "the only room";
    let tally = Tally::of_rounds(name, 723, 0..=254, |tally, random, rooms| {
        let mut draft = Draft::default();
        draft.go_on_to(2 * rooms, Habits::new(1, 0, 0), random);
        draft.go_on_to(3 * rooms, Habits::new(0, 1, 0), random);
        assert_eq!((draft.rooms(), draft.runs()), (1, 1));
        for more in [&[2][..], &[2, 2], &[2, 0], &[2, 1, 2], &[2, 3]] {
            let expected = refused(Refusal::OnlyRoom, 2 * rooms + 1, 1, 1);
            tally.expect_refused_trace(&with(&draft, more), expected);
        }
        draft.claim();
        draft.go_on_to(draft.bytes.len() + 9, Habits::new(1, 1, 1), random);
        expect_known(tally, &draft);
    });
    tally.expect_refused([Refusal::OnlyRoom], [255 * 5 * 3]);
    tally.finish(255 * (5 * 3 + 4));
}

/// 255 rooms make 255 runs at most, and then all runs but the current one are
/// below it, or all above.
#[test]
fn the_most_runs() {
    let mut tally = Tally::new("255 runs");
    for triple in [0, 1] {
        for rooms in 2..=255 {
            let adds = [1, triple].repeat(rooms - 1);
            let count = rooms as u8;
            let expected = traced(rooms - 1, count, count);
            tally.expect_traced(&GivenTrace::new(&adds[..]), expected);
            let claim = GivenTrace::new([&adds[..], &[3]].concat());
            let expected = refused(Refusal::RunsLeft, rooms, count, count);
            tally.expect_refused_trace(&claim, expected);
            let missing = if triple == 0 { [4, 6] } else { [3, 7] };
            for other in missing.iter().filter(|_| rooms < 255) {
                let given = GivenTrace::new([&adds[..], &[1, *other]].concat());
                let expected = refused(Refusal::RunMissing, rooms, count, count);
                tally.expect_refused_trace(&given, expected);
            }
        }
    }
    tally.finish(2 * 254 * (3 + 3) + 2 * 253 * 2 * 3);
}

/// Rows and piles, and the plans that have 128 runs on the way: what each room
/// came to when it was added is what taking the next one away comes to.
#[test]
fn plans_of_255_rooms_taken_down_again() {
    let mut tally = Tally::new("plans of 255 rooms taken down again");
    let [first, second] = Walked::with_128_runs();
    for walked in [Walked::rising(255), Walked::falling(255), first, second] {
        let mut draft = Draft::of(&walked);
        draft.claim();
        while draft.rooms() > 1 {
            draft.take_away();
        }
        expect_known(&mut tally, &draft);
        let mut states = [0; 509];
        let answer = nenturxo::trace(&draft.bytes, &mut states).expect("an accepted trace");
        assert_eq!((answer.moves, answer.rooms, answer.runs), (509, 1, 1));
        let up = states[..253].iter().rev();
        assert!(states[255..].iter().eq(up.chain(&[257])));
    }
    tally.finish(4 * 4);
}
