//! The totals that 003 prints.

use crate::help::{total, COUNTED};
use reference::cases::counts::MOSAIC;

/// For 11 rooms the table has 1,882,690 where the formula of 000 gives 1,882,960:
/// two digits have changed places. The formula decides.
#[test]
fn totals_are_those_of_table_1_of_003_but_for_a_misprint() {
    let mut misprinted = Vec::new();
    for (n, printed) in COUNTED.zip(MOSAIC) {
        if total(n) != printed {
            misprinted.push((n, total(n), printed));
        }
    }
    assert_eq!(misprinted, [(11, 1_882_960, 1_882_690)]);
}
