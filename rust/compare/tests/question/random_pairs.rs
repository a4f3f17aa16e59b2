//! Pairs of positions in plans of up to 255 rooms.

use crate::help::{shown, Kind};
use compare::{repeat, report, AskedRecord, Tally};
use reference::cases::walk::{biased_list, list_in_turn};
use reference::cases::Random;
use reference::{Relation, Room, Side};

/// Whether a line has an edge of each room, from opposite sides. In a drawing
/// every inner line has one segment, so these are edges that one segment holds.
fn share_a_line(a: Room, b: Room) -> bool {
    a.right == b.left || b.right == a.left || a.top == b.bottom || b.top == a.bottom
}

/// Whether both rooms are at one side of the outline of a drawing of `n`.
fn share_an_outline_side(a: Room, b: Room, n: usize) -> bool {
    let is_far = |at| usize::from(at) == n;
    a.left.max(b.left) == 0
        || a.bottom.max(b.bottom) == 0
        || is_far(a.right.min(b.right))
        || is_far(a.top.min(b.top))
}

/// Whether the first room ends before the second begins.
fn ends_before(a: Room, b: Room) -> bool {
    a.right <= b.left
}

/// Of each trap, whether two rooms of a drawing of `n` with this answer are in
/// it.
fn traps(a: Room, b: Room, n: usize, (relation, touch): (Relation, bool)) -> [bool; 2] {
    [
        // on an outline side, which does not count
        !touch && share_an_outline_side(a, b, n),
        // seems to be left by x, and is not
        ends_before(a, b) && relation.side != Side::Left,
    ]
}

/// How far one of `n` positions is from another, round the end if need be: in
/// some rounds not far, since near positions touch more often than others.
fn some_distance(n: usize, round: usize, random: &mut Random) -> usize {
    match round % 3 {
        0 => random.between(1, n - 1),
        1 => random.between(1, (n - 1).min(4)),
        _ => n - random.between(1, (n - 1).min(4)),
    }
}

#[test]
fn pairs_of_random_plans() {
    const PLANS: usize = 6_000;
    const PAIRS: usize = 24;
    let name = "pairs of random plans";
    // By side, through others and directly.
    let mut relations = [[0; 2]; 4];
    let mut of_kind = [0; Kind::ALL.len()];
    let mut trapped = [0; 2];
    let tally = Tally::of_rounds(name, 101, 0..PLANS, |tally, random, round| {
        let n = random.between(2, 255);
        let given = AskedRecord::new(list_in_turn(n, round, random).record());
        let questions = given.answer.as_ref().expect("walks are accepted");
        let rooms = &questions.plan().rooms;
        for pair in 0..PAIRS {
            let first = random.between(1, n);
            let second = (first - 1 + some_distance(n, pair, random)) % n + 1;
            let [a, b] = [first, second].map(|position| rooms[position - 1]);
            let [first, second] = [first, second].map(|p| u8::try_from(p).expect("a byte"));
            let answer = tally.question(&given, first, second);
            let (relation, touch) = answer.expect("the positions are inside and differ");

            assert_eq!(relation.direct, share_a_line(a, b), "{given}");
            relations[relation.side as usize][usize::from(relation.direct)] += 1;
            of_kind[Kind::of([a, b], (relation, touch)) as usize] += 1;
            for (count, is_in) in trapped.iter_mut().zip(traps(a, b, n, (relation, touch))) {
                *count += usize::from(is_in);
            }
        }
    });
    report(shown(of_kind));
    // Each kind of pair must come up, or it would not have been tried.
    let all_over = |least: usize, counts: &[usize]| counts.iter().all(|&count| count > least);
    assert!(all_over(PLANS, relations.as_flattened()), "{relations:?}");
    assert!(all_over(PLANS / 10, &of_kind), "{of_kind:?}");
    assert!(all_over(PLANS / 10, &trapped), "{trapped:?}");
    tally.finish(PLANS * PAIRS);
}

#[test]
fn the_two_ways_to_ask_agree() {
    const PLANS: usize = 400;
    // Pairs that are direct, that only touch, and others.
    let mut pairs = [0; 3];
    repeat(102, 0..PLANS, |random, _| {
        let n = random.between(2, 60);
        let record = biased_list(n, random).record();
        for first in 1..=n as u8 {
            for second in 1..first {
                let there = nenturxo::question(&record, first, second);
                let back = nenturxo::question(&record, second, first);
                let reversed = back.map(|(relation, touch)| (relation.reversed(), touch));
                assert!(there == reversed, "{first}, {second} of {record:02x?}");
                let (relation, touch) = there.expect("the positions are inside and differ");
                assert!(
                    touch || !relation.direct,
                    "{first}, {second} of {record:02x?}"
                );
                pairs[usize::from(!relation.direct) + usize::from(!touch)] += 1;
            }
        }
    });
    let [direct, touching, others] = pairs;
    report(format_args!(
        "{} pairs asked for both ways, {direct} direct and {touching} that only touch",
        direct + touching + others
    ));
    assert!(
        others > 100_000 && direct > 10_000 && touching > 1_000,
        "{pairs:?}"
    );
}
