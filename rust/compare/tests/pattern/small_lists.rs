//! Every list over a small alphabet: most are refused, for every cause.

use crate::help::Named;
use compare::Tally;
use reference::cases::every_list;
use reference::Refusal;

/// Compares every list of up to `longest` entries from 0 to `greatest`.
fn compare_every_list(name: &'static str, greatest: u8, longest: u32) -> (Tally, Named) {
    let (mut tally, mut named) = (Tally::new(name), Named::default());
    for length in 0..=longest {
        for labels in every_list(greatest, length) {
            named.count(tally.pattern(&labels));
        }
    }
    (tally, named)
}

/// The number of lists of up to `longest` entries from 0 to `greatest`.
fn number_of_lists(greatest: usize, longest: u32) -> usize {
    (0..=longest).map(|length| (greatest + 1).pow(length)).sum()
}

#[test]
fn every_list_of_up_to_6_entries_from_0_to_4() {
    let name = "lists of up to 6 entries from 0 to 4";
    let (tally, named) = compare_every_list(name, 4, 6);
    // No list of 5 or 6 entries has each label once.
    let expected = Named {
        none: 1 + 2 + 6 + 22,
        first: 1,
        second: 1,
    };
    assert_eq!(named, expected);
    tally.expect_refused([Refusal::ListLength], [1]);
    tally.finish(number_of_lists(4, 6));
}

#[test]
fn every_list_of_up_to_5_entries_from_0_to_7() {
    let name = "lists of up to 5 entries from 0 to 7";
    let (tally, named) = compare_every_list(name, 7, 5);
    let expected = Named {
        none: 1 + 2 + 6 + 22 + 92,
        first: 1 + 14,
        second: 1 + 14,
    };
    assert_eq!(named, expected);
    // Of all lists of n entries, n to the n-th have no label outside 1 to n,
    // and of these n! have each label once.
    let inside: usize = (1..=5).map(|n: usize| n.pow(n as u32)).sum();
    let once = 1 + 2 + 6 + 24 + 120;
    let lists = number_of_lists(7, 5);
    tally.expect_refused(Refusal::OF_PATTERNS, [1, lists - 1 - inside, inside - once]);
    tally.finish(lists);
}

#[test]
fn every_list_of_6_entries_from_0_to_7() {
    let (mut tally, mut named) = (
        Tally::new("lists of 6 entries from 0 to 7"),
        Named::default(),
    );
    for labels in every_list(7, 6) {
        named.count(tally.pattern(&labels));
    }
    let expected = Named {
        none: 422,
        first: (720 - 422) / 2,
        second: (720 - 422) / 2,
    };
    assert_eq!(named, expected);
    let (all, inside) = (8usize.pow(6), 6usize.pow(6));
    tally.expect_refused(Refusal::OF_PATTERNS, [0, all - inside, inside - 720]);
    tally.finish(all);
}
