//! Answers that are printed: the sheet's worked plans, and the permutations
//! and the code with the figures of 000 and 001.

use compare::Tally;
use reference::cases::walk::Walked;
use reference::cases::worked::{code_of_figure_7, BARRED, CONVERTED, LISTS};
use reference::{record_of, triples, Refusal};

/// Compares lists with their records, and lists that are barred, and prints
/// the counts.
fn compare(name: &'static str, accepted: &[(&[u8], &[u8])], barred: &[&[u8]]) {
    let mut tally = Tally::new(name);
    for (labels, record) in accepted {
        tally.expect_record(labels, record);
    }
    for labels in barred {
        for capacity in 0..=5 {
            tally.expect_refusal(labels, capacity, Refusal::BarredPattern);
        }
    }
    tally.finish(3 * accepted.len() + 6 * barred.len());
}

#[test]
fn worked_plans_of_the_sheet() {
    compare("worked plans of the sheet", &LISTS, &BARRED);
}

#[test]
fn permutations_printed_with_the_figures_of_000_and_001() {
    // 000, Figure 8: "the non-Baxter permutation 24153".
    let figure_8: &[u8] = &[2, 4, 1, 5, 3];
    compare(
        "permutations printed in 000 and 001",
        &[LISTS[5], LISTS[6], LISTS[7], CONVERTED],
        &[BARRED[0], BARRED[1], figure_8],
    );
}

#[test]
fn worked_plan_of_255_rising_labels_and_of_256() {
    let mut tally = Tally::new("255 rising labels, and 256");
    // 254 times 010: 31 groups of eight triples, then six and spare bits.
    let mut rising = Walked::rising(255).labels;
    let mut record = vec![0xff];
    for _ in 0..31 {
        record.extend([0b0100_1001, 0b0010_0100, 0b1001_0010]);
    }
    record.extend([0b0100_1001, 0b0010_0100, 0b1000_0000]);
    assert_eq!(record.len(), 97);
    tally.expect_record(&rising, &record);

    rising.push(255);
    for capacity in [0, 96, 97, 98, 200] {
        tally.expect_refusal(&rising, capacity, Refusal::ListLength);
    }
    tally.finish(3 + 5);
}

#[test]
fn code_printed_with_figure_7_of_001() {
    let mut tally = Tally::new("code printed with figure 7 of 001");
    let labels = [2, 7, 3, 1, 5, 6, 4];
    assert_eq!(triples(&labels), code_of_figure_7());
    tally.expect_record(&labels, &record_of(7, &code_of_figure_7()));
    tally.finish(3);
}

#[test]
fn lists_named_among_the_traps_of_the_sheet() {
    let mut tally = Tally::new("traps of the sheet");
    // The same grid drawing, yet only the second is Baxter.
    tally.expect_refusal(&[2, 4, 1, 3], 3, Refusal::BarredPattern);
    tally.expect_record(&[3, 4, 1, 2], &[0x04, 0x47, 0x00]);
    // Contains 4 1 5 2, shaped 3142, and is accepted.
    tally.expect_record(&[4, 1, 3, 5, 2], &[0x05, 0x31, 0x70]);
    tally.finish(1 + 3 + 3);
}
