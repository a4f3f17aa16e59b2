//! Every pair of numbers that can be asked for.

use compare::{AskedRecord, Tally};
use reference::cases::walk::{random_list, Walked};
use reference::cases::{every_code, worked, Random, BAXTER_NUMBERS};
use reference::{record_of, Refusal};

/// Asks for every pair of numbers from 0 to `last`.
fn ask_every_pair(tally: &mut Tally, given: &AskedRecord, last: u8) {
    for first in 0..=last {
        for second in 0..=last {
            let _ = tally.question(given, first, second);
        }
    }
}

#[test]
fn every_pair_of_numbers_for_some_records() {
    let mut tally = Tally::new("pairs of numbers from 0 to 255");
    let mut random = Random::from_seed(91);
    let short = [0, 1, 4, 7].map(|place| worked::LISTS[place].1.to_vec());
    let mut records = short.to_vec();
    let longest = [Walked::rising(255), Walked::falling(255)].into_iter();
    let longest = longest.chain(Walked::with_128_runs());
    records.extend(longest.map(|walked| walked.record()));
    for n in [40, 128, 254, 255] {
        records.push(random_list(n, &mut random).record());
    }
    for record in &records {
        ask_every_pair(&mut tally, &AskedRecord::new(&record[..]), 255);
    }
    // Each record of n rooms has n² pairs inside, n of them equal.
    let counts = [1, 2, 5, 7, 255, 255, 255, 255, 40, 128, 254, 255];
    let inside: usize = counts.iter().map(|n| n * n).sum();
    let equal: usize = counts.iter().sum();
    let all = records.len() * 256 * 256;
    tally.expect_refused(
        [Refusal::PositionOutside, Refusal::PositionsEqual],
        [all - inside, equal],
    );
    assert_eq!(tally.accepted(), inside - equal);
    tally.finish(all);
}

#[test]
fn every_pair_of_numbers_for_a_record_of_each_refusal() {
    let mut tally = Tally::new("pairs of numbers for refused records");
    for (record, refusal) in worked::REFUSED_RECORDS {
        ask_every_pair(&mut tally, &AskedRecord::new(record), 255);
        assert_eq!(tally.refused(refusal), 256 * 256);
    }
    tally.finish(worked::REFUSED_RECORDS.len() * 256 * 256);
}

#[test]
fn every_pair_near_the_plan_for_every_plan_of_up_to_7_rooms() {
    let mut tally = Tally::new("pairs of every plan of up to 7 rooms");
    let mut cases = 0;
    for (n, number) in (1..=7).zip(BAXTER_NUMBERS) {
        let records = every_code(n).map(|code| AskedRecord::new(record_of(n, &code)));
        let accepted: Vec<AskedRecord> = records.filter(|given| given.answer.is_ok()).collect();
        assert_eq!(accepted.len(), number, "n = {n}");
        for given in &accepted {
            ask_every_pair(&mut tally, given, n + 1);
        }
        cases += number * usize::from(n + 2).pow(2);
    }
    tally.finish(cases);
}
