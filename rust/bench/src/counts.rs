//! Plans that are counted.
//!
//! The version from the sheet keeps what it has found, so the time of its calls
//! says nothing. What is timed is how long it takes to find the counts for n anew,
//! for either call: by judging all records of up to 7 rooms, and for more rooms by
//! its recurrence.

use crate::timing::{calls_in_a_round, one_turn, quickest, Times};
use reference::{counts_of, fast};

/// Numbers of rooms.
pub const ROOMS: [u8; 3] = [5, 11, 17];

/// The times of "Plan count" for n rooms and half as many rises, which most plans
/// have: that of the version from the sheet, and then the others. All versions
/// answer alike.
pub fn plan_count(n: u8) -> (f64, Times) {
    let asked = [(n, (n - 1) / 2)];
    for (n, rises) in asked {
        let count = fast::plan_count(n, rises);
        assert_eq!(reference::plan_count(n, rises), count);
        assert_eq!(nenturxo::plan_count(n, rises).ok(), count.ok());
    }
    let sheet = one_turn(&asked, |&(n, rises)| {
        counts_of(n).map(|counts| counts[usize::from(rises)])
    });
    let times = quickest(
        &asked,
        calls_in_a_round(&asked, n.into()),
        |&(n, rises)| nenturxo::plan_count(n, rises),
        |&(n, rises)| fast::plan_count(n, rises),
    );
    (sheet, times)
}

/// The times of "Plan total" for n rooms, likewise.
pub fn plan_total(n: u8) -> (f64, Times) {
    let total = fast::plan_total(n);
    assert_eq!(reference::plan_total(n), total);
    assert_eq!(nenturxo::plan_total(n).ok(), total.ok());
    let asked = [n];
    let sheet = one_turn(&asked, |&n| {
        counts_of(n).map(|counts| counts.iter().sum::<u64>())
    });
    let times = quickest(
        &asked,
        calls_in_a_round(&asked, n.into()),
        |&n| nenturxo::plan_total(n),
        |&n| fast::plan_total(n),
    );
    (sheet, times)
}
