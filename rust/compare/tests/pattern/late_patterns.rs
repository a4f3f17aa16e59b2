//! Lists whose only pattern, or whose first one, is at a known place: at the
//! very end, at every place, far from the labels before it.

use crate::help::CONDITIONS;
use compare::Tally;
use reference::cases::barred::BarredList;
use reference::cases::walk::list_in_turn;

/// Compares a list with its first pattern, and the same list counted from the
/// other end.
fn expect(tally: &mut Tally, list: &BarredList) {
    for list in [list, &list.counted_down()] {
        tally.expect_pattern(&list.labels, Ok(Some(list.first)));
    }
}

#[test]
fn the_last_four_labels_of_4_to_255() {
    const LISTS: usize = 8;
    let name = "a pattern at the end of a Baxter list";
    let rounds = (4..=255).flat_map(|n| (0..LISTS).map(move |round| (n, round)));
    let tally = Tally::of_rounds(name, 411, rounds, |tally, random, (n, round)| {
        let condition = CONDITIONS[round % 2];
        let list = BarredList::at_the_end(n, condition, round / 2, random);
        assert_eq!(list.labels.len(), n);
        assert_eq!(usize::from(list.first.i), n - 3, "{:?}", list.labels);
        expect(tally, &list);
        if n <= 20 {
            let answer = tally.pattern(&list.labels);
            assert_eq!(answer, Ok(Some(list.first)), "{:?}", list.labels);
        }
    });
    tally.finish(2 * 252 * LISTS);
}

/// For such lists the definitions take as long as can be.
#[test]
fn the_last_four_labels_of_255_by_the_definitions() {
    const LISTS: usize = 4;
    let name = "a pattern at the end of 255 labels, all positions searched";
    let tally = Tally::of_rounds(name, 412, 0..LISTS, |tally, random, round| {
        let condition = CONDITIONS[round % 2];
        let list = BarredList::at_the_end(255, condition, round / 2, random);
        let answer = tally.pattern(&list.labels);
        assert_eq!(answer, Ok(Some(list.first)), "{:?}", list.labels);
        assert_eq!(list.first.i, 252);
    });
    tally.finish(LISTS);
}

#[test]
fn a_pattern_at_every_place() {
    let name = "a pattern at every place";
    let lengths = [1, 2, 5, 20, 59, 60, 61, 100, 252];
    let tally = Tally::of_rounds(name, 413, lengths, |tally, random, n| {
        for round in 0..4 {
            let baxter = list_in_turn(n, round, random).labels;
            for place in 0..n {
                let condition = CONDITIONS[round / 2];
                expect(tally, &BarredList::planted(&baxter, place, condition));
            }
        }
    });
    assert_eq!(tally.accepted(), tally.cases());
    tally.finish(2 * 4 * lengths.iter().sum::<usize>());
}

/// Rising lists, in which no label but those of the pattern is far from the
/// next one.
#[test]
fn a_pattern_at_every_place_of_rising_labels() {
    let mut tally = Tally::new("a pattern among rising labels");
    let rising: Vec<u8> = (1..=252).collect();
    for place in 0..252 {
        for condition in CONDITIONS {
            expect(&mut tally, &BarredList::planted(&rising, place, condition));
        }
    }
    tally.finish(252 * 2 * 2);
}

/// Lists in which nearly every label is far from the next ones.
#[test]
fn patterns_after_long_ways() {
    const LISTS: usize = 2_000;
    let name = "a pattern after long ways";
    let tally = Tally::of_rounds(name, 414, 0..LISTS, |tally, random, round| {
        let n = [255, random.between(4, 255)][round % 2];
        let condition = CONDITIONS[round / 2 % 2];
        expect(tally, &BarredList::after_long_ways(n, condition, random));
        let short = BarredList::after_long_ways(random.between(4, 24), condition, random);
        let answer = tally.pattern(&short.labels);
        assert_eq!(answer, Ok(Some(short.first)), "{:?}", short.labels);
    });
    tally.finish(3 * LISTS);
}

/// Whatever a version counts in words, blocks of any width and at any place
/// fill them in all ways.
#[test]
fn patterns_between_blocks_of_every_width() {
    let mut tally = Tally::new("a pattern between blocks");
    for width in 1..=84 {
        for rising in 0..=254 - 3 * width {
            expect(&mut tally, &BarredList::in_blocks(rising, width));
        }
    }
    assert_eq!(tally.accepted(), tally.cases());
    tally.finish(2 * 84 * 3);
}
