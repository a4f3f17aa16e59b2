use crate::cases::groups::{every_group, group_of, some_groups};
use crate::cases::slicing::SlicingPlan;
use crate::cases::walk::{halves, list_in_turn, some_count, Walked};
use crate::cases::{every_code, worked, Random};
use crate::{fast, groups, plan_of, record_of, Cut, Group, Plan, Refusal, Side};

/// Compares the tuned version with the answer for a plan or with its refusal.
fn compare_with(plan: &Result<Plan, Refusal>, record: &[u8], [first, second]: [&Group; 2]) {
    let answer = match plan {
        Ok(plan) => plan.groups(first, second),
        Err(refusal) => Err(*refusal),
    };
    let fast = fast::groups(record, first, second);
    assert_eq!(fast, answer, "{record:02X?} {first:02X?} {second:02X?}");
}

/// Compares the two versions, and gives the answer.
fn compare(record: &[u8], first: &Group, second: &Group) -> Result<Option<Side>, Refusal> {
    compare_with(&plan_of(record), record, [first, second]);
    groups(record, first, second)
}

/// Compares the two versions on groups of the rooms of an accepted record.
fn compare_some(record: &[u8], pairs: usize, random: &mut Random) {
    let plan = plan_of(record);
    if record[0] == 1 {
        return compare_with(&plan, record, [&group_of(&[1]); 2]);
    }
    for _ in 0..pairs {
        let groups = some_groups(plan.as_ref().expect("an accepted record"), random);
        compare_with(&plan, record, groups.each_ref());
    }
}

#[test]
fn agrees_with_the_definitions_on_every_two_groups_of_up_to_6_rooms() {
    let mut accepted = 0;
    for n in 1..=6 {
        for code in every_code(n) {
            let record = record_of(n, &code);
            let plan = plan_of(&record);
            if plan.is_err() {
                continue;
            }
            accepted += 1;
            // For small plans positions outside too.
            let last = u32::from(n.max(5));
            for first in every_group(last) {
                for second in every_group(last) {
                    compare_with(&plan, &record, [&first, &second]);
                }
            }
        }
    }
    assert_eq!(accepted, 1 + 2 + 6 + 22 + 92 + 422);
}

#[test]
fn agrees_with_the_definitions_on_every_code_of_up_to_7_rooms() {
    let groups = [[1], [2], [3], [7]].map(|positions| group_of(&positions));
    for n in 1..=7 {
        for code in every_code(n) {
            let record = record_of(n, &code);
            let plan = plan_of(&record);
            for [first, second] in [[0, 1], [1, 0], [0, 2], [2, 1], [0, 3], [3, 1], [1, 1]] {
                compare_with(&plan, &record, [&groups[first], &groups[second]]);
            }
        }
    }
}

#[test]
fn agrees_with_the_definitions_on_every_record_of_up_to_2_bytes() {
    let [one, two] = [[1], [2]].map(|positions| group_of(&positions));
    let mut related = 0;
    let mut count = |record: &[u8]| {
        related += usize::from(compare(record, &one, &two).is_ok());
    };
    count(&[]);
    for kind in 0..=255 {
        count(&[kind]);
        for byte in 0..=255 {
            count(&[kind, byte]);
        }
    }
    assert_eq!(related, 2 + 6);
}

#[test]
fn agrees_with_the_definitions_on_random_plans() {
    let mut random = Random::from_seed(221);
    for round in 0..2_000 {
        let walked = list_in_turn(some_count(&mut random), round, &mut random);
        compare_some(&walked.record(), 40, &mut random);
    }
}

#[test]
fn agrees_with_the_definitions_wherever_the_stores_change() {
    let mut random = Random::from_seed(222);
    for n in [1, 2, 7, 8, 9, 10, 63, 64, 65, 66, 127, 128, 129, 254, 255] {
        for round in 0..40 {
            let walked = list_in_turn(n, round, &mut random);
            compare_some(&walked.record(), 40, &mut random);
        }
    }
}

#[test]
fn agrees_with_the_definitions_on_rows_and_spirals() {
    let mut random = Random::from_seed(223);
    for n in [8, 9, 64, 65, 255] {
        let rows = [Walked::rising(n), Walked::falling(n)].map(|walked| walked.record());
        let ends = crate::cases::slicing::COMBS;
        let combs = ends.map(|ends| SlicingPlan::comb(Cut::Vertical, n.into(), ends).record());
        for record in rows.iter().chain(&combs) {
            compare_some(record, 400, &mut random);
        }
    }
}

#[test]
fn agrees_with_the_definitions_where_the_runs_are_most() {
    let mut random = Random::from_seed(224);
    for first in 0..8 {
        for then in 0..8 {
            let record = record_of(255, &halves(first, then));
            let _ = compare(&record, &group_of(&[1, 100]), &group_of(&[200, 255]));
        }
    }
    for walked in Walked::with_128_runs() {
        compare_some(&walked.record(), 400, &mut random);
    }
}

#[test]
fn agrees_with_the_definitions_on_any_triples() {
    let mut random = Random::from_seed(225);
    let mut refused = 0;
    for round in 0..20_000 {
        let record = crate::cases::walk::any_record(round, &mut random);
        let n = usize::from(record[0]).max(2);
        let [first, second] = [1..=n / 2, n / 2 + 1..=n];
        let [first, second] = [first, second].map(|range| group_of(&range.collect::<Vec<_>>()));
        refused += usize::from(compare(&record, &first, &second).is_err());
    }
    assert!(refused > 5_000, "{refused}");
}

#[test]
fn refusals_come_in_the_order_of_the_request() {
    for record in [worked::LISTED, [0x05, 0x31, 0x71], [0x05, 0x31, 0x72]] {
        for position in 1..=256 {
            for others in [&[][..], &[1], &[5], &[256], &[2, 3], &[64, 128]] {
                let (one, other) = (group_of(&[position]), group_of(others));
                let _ = compare(&record, &one, &other);
                let _ = compare(&record, &other, &one);
                let _ = compare(&record, &one, &one);
                let all = group_of(&[others, &[position]].concat());
                let _ = compare(&record, &all, &one);
                let _ = compare(&record, &all, &other);
            }
        }
    }
}

#[test]
fn a_position_outside_is_found_wherever_it_is() {
    let outside = Err(Refusal::PositionOutside);
    for n in [
        1, 2, 8, 9, 63, 64, 65, 127, 128, 129, 191, 192, 193, 254, 255,
    ] {
        let record = Walked::rising(n).record();
        for position in usize::from(n) + 1..=256 {
            let [one, beyond] = [[1], [position]].map(|positions| group_of(&positions));
            assert_eq!(compare(&record, &one, &beyond), outside);
            assert_eq!(compare(&record, &beyond, &one), outside);
        }
    }
}
