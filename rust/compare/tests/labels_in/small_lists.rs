//! Every list over a small alphabet: most are refused, for every cause.

use compare::Tally;
use reference::cases::every_list;
use reference::Refusal;

/// Compares every list of up to `longest` entries from 0 to `greatest`, with
/// record slices from none to one byte more than such a list can need.
fn compare_every_list(name: &'static str, greatest: u8, longest: u32, capacities: usize) -> Tally {
    let mut tally = Tally::new(name);
    for length in 0..=longest {
        for labels in every_list(greatest, length) {
            for capacity in 0..capacities {
                let _ = tally.labels_in(&labels, capacity);
            }
        }
    }
    tally
}

/// The number of lists of up to `longest` entries from 0 to `greatest`.
fn number_of_lists(greatest: usize, longest: u32) -> usize {
    (0..=longest).map(|length| (greatest + 1).pow(length)).sum()
}

#[test]
fn every_list_of_up_to_6_entries_from_0_to_4() {
    let tally = compare_every_list("lists of up to 6 entries from 0 to 4", 4, 6, 5);
    // No list of 6 entries has only labels up to 4, so 8 comes from n = 4 alone.
    assert_eq!(tally.refused(Refusal::BarredPattern), 2 * 5);
    tally.finish(5 * number_of_lists(4, 6));
}

#[test]
fn every_list_of_up_to_5_entries_from_0_to_7() {
    let tally = compare_every_list("lists of up to 5 entries from 0 to 7", 7, 5, 4);
    // Labels above n as well as 0: of 8^5 lists 5^5 have neither.
    assert!(tally.refused(Refusal::LabelOutside) >= 4 * (8usize.pow(5) - 5usize.pow(5)));
    tally.finish(4 * number_of_lists(7, 5));
}

#[test]
fn every_list_of_6_entries_from_0_to_7() {
    let mut tally = Tally::new("lists of 6 entries from 0 to 7");
    for labels in every_list(7, 6) {
        let _ = tally.labels_in(&labels, 3);
    }
    assert_eq!(tally.accepted(), 422, "the Baxter number for 6");
    tally.expect_refused(
        [Refusal::LabelTwice, Refusal::BarredPattern],
        [6usize.pow(6) - 720, 720 - 422],
    );
    tally.finish(8usize.pow(6));
}
