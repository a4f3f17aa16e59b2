//! Lists with patterns of both conditions: the first one is named, whichever it
//! meets.

use crate::help::CONDITIONS;
use compare::{report, Tally};
use reference::cases::barred::BarredList;
use reference::cases::walk::list_in_turn;
use reference::cases::Random;
use reference::Condition;

/// The condition that four labels in a row meet.
fn met_at(labels: &[u8], place: usize) -> Option<Condition> {
    let four = labels[place..].first_chunk();
    four.and_then(|&four| Condition::met_by(four))
}

/// Two places of a list of `n` labels, at least 2, in order.
fn places_in_order(n: usize, random: &mut Random) -> [usize; 2] {
    let first = random.below(n - 1);
    [first, random.between(first + 1, n - 1)]
}

#[test]
fn one_condition_first_and_the_other_one_later() {
    const LISTS: usize = 6_000;
    let mut occurred = [0; 2];
    let name = "patterns of both conditions";
    let tally = Tally::of_rounds(name, 421, 0..LISTS, |tally, random, round| {
        let n = [249, random.between(2, 249), random.between(2, 20)][round % 3];
        let baxter = list_in_turn(n, round / 2, random).labels;
        let [first, second] = places_in_order(n, random);
        let condition = CONDITIONS[round % 2];
        let list = BarredList::planted_twice(&baxter, [first, second], condition);

        // Both are there, and the first one is the first.
        let later = second + BarredList::MORE;
        assert_eq!(met_at(&list.labels, first), Some(condition));
        assert_eq!(met_at(&list.labels, later), Some(condition.other()));
        occurred[usize::from(condition == Condition::Second)] += 1;
        tally.expect_pattern(&list.labels, Ok(Some(list.first)));
        if n <= 20 {
            let answer = tally.pattern(&list.labels);
            assert_eq!(answer, Ok(Some(list.first)), "{:?}", list.labels);
        }
    });
    assert_eq!(occurred, [LISTS / 2; 2]);
    tally.finish(LISTS + LISTS / 3);
}

/// The conditions that are met somewhere in a list: the first one, the second
/// one.
fn conditions_met(labels: &[u8]) -> [bool; 2] {
    let n = labels.len();
    let mut met = [false; 2];
    for i in 0..n {
        for j in i + 1..n {
            for k in j + 1..n {
                for l in k + 1..n {
                    let four = [i, j, k, l].map(|place| labels[place]);
                    if let Some(condition) = Condition::met_by(four) {
                        met[usize::from(condition == Condition::Second)] = true;
                    }
                }
            }
        }
    }
    met
}

/// In permutations the patterns lie across each other in all ways.
#[test]
fn permutations_with_patterns_of_both_conditions() {
    const LISTS: usize = 6_000;
    let (mut first_first, mut second_first) = (0, 0);
    let name = "permutations with both conditions";
    let tally = Tally::of_rounds(name, 422, 0..LISTS, |tally, random, _| {
        let mut labels: Vec<u8> = (1..=11).collect();
        random.shuffle(&mut labels);
        let answer = tally.pattern(&labels);
        if conditions_met(&labels) == [true; 2] {
            let named = answer.expect("the labels are a permutation");
            match named.expect("there are patterns").condition {
                Condition::First => first_first += 1,
                Condition::Second => second_first += 1,
            }
        }
    });
    assert!(
        first_first > LISTS / 4 && second_first > LISTS / 4,
        "{first_first} and {second_first} of {LISTS}"
    );
    tally.finish(LISTS);
}

/// From the same i on both conditions are met: the smaller j decides.
#[test]
fn both_conditions_from_the_first_label_on() {
    const LISTS: usize = 20_000;
    let mut occurred = [[0; 2]; 2];
    let name = "both conditions from the first label on";
    let tally = Tally::of_rounds(name, 423, 0..LISTS, |tally, random, round| {
        let n = [6, 12, 40, 255][round % 4];
        let mut labels: Vec<u8> = (1..=255).take(n).collect();
        random.shuffle(&mut labels);
        let Ok(Some(named)) = tally.pattern_quickly(&labels) else {
            return;
        };
        if named.i == 1 && from_the_first_label(&labels) == [true; 2] {
            let is_second = named.condition == Condition::Second;
            occurred[usize::from(is_second)][usize::from(named.j == 2)] += 1;
        }
    });
    report(format_args!(
        "by condition and whether j is 2: {occurred:?}"
    ));
    // With both, b of one of them is the second label.
    assert_eq!([occurred[0][0], occurred[1][0]], [0; 2]);
    assert!(occurred[0][1] > LISTS / 10 && occurred[1][1] > LISTS / 10);
    tally.finish(LISTS);
}

/// The conditions that are met from the first label on. Of each the first b and
/// then the first c are enough.
fn from_the_first_label(labels: &[u8]) -> [bool; 2] {
    let a = labels[0];
    let place = |label: Option<u8>| labels.iter().position(|&at| Some(at) == label);
    let in_turn = |end: Option<usize>, first: &dyn Fn(u8) -> bool, then: &dyn Fn(u8) -> bool| {
        let between = &labels[1..end.unwrap_or(1)];
        let mut from_first = between.iter().skip_while(|&&label| !first(label));
        from_first.any(|&label| then(label))
    };
    let (above, below) = (|label: u8| label > a, |label: u8| label < a);
    [
        in_turn(place(a.checked_add(1)), &above, &below),
        in_turn(place(a.checked_sub(1)), &below, &above),
    ]
}
