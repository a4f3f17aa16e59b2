use super::{groups, positions_in, Group};
use crate::cases::groups::{every_group, group_of};
use crate::cases::walk::Walked;
use crate::cases::worked::{LISTED, REFUSED_RECORDS};
use crate::cases::{asked, baxter_lists_up_to, every_code};
use crate::{plan_of, record_of, Refusal, Side};

/// What the sheet's pinwheel, 4 1 3 5 2, answers for these positions.
fn of_the_pinwheel(first: &[usize], second: &[usize]) -> Result<Option<Side>, Refusal> {
    groups(&LISTED, &group_of(first), &group_of(second))
}

#[test]
fn position_k_is_bit_k_minus_1_from_the_low_end() {
    assert_eq!(positions_in(&[0; 32]), []);
    assert!(positions_in(&[255; 32]).into_iter().eq(1..=256));
    for (byte, value, position) in [
        (0, 1, 1),
        (0, 128, 8),
        (1, 1, 9),
        (31, 64, 255),
        (31, 128, 256),
    ] {
        let mut group = [0; 32];
        group[byte] = value;
        assert_eq!(positions_in(&group), [position]);
    }
}

#[test]
fn groups_of_a_pinwheel() {
    let side = |first, second| of_the_pinwheel(first, second).unwrap();
    assert_eq!(side(&[2, 3], &[4]), Some(Side::Left));
    assert_eq!(side(&[4], &[1, 2, 3]), Some(Side::Right));
    assert_eq!(side(&[5], &[1, 3, 4]), Some(Side::Above));
    assert_eq!(side(&[1], &[2, 3, 5]), Some(Side::Below));
    assert_eq!(side(&[1], &[2, 4]), None);
    assert_eq!(side(&[1, 2, 4, 5], &[3]), None);
}

#[test]
fn groups_of_one_room_each_have_the_relation_of_the_two() {
    for plan in asked::PLANS {
        for &([first, second], standing) in plan.pairs {
            let [one, other] = [first, second].map(|position| group_of(&[position.into()]));
            let side = standing.side;
            assert_eq!(groups(plan.record, &one, &other), Ok(Some(side)));
            let back = groups(plan.record, &other, &one);
            assert_eq!(back, Ok(Some(side.opposite())));
        }
    }
}

/// The answer for two groups of rooms, by the extremes of their positions and
/// labels alone.
fn by_extremes(labels: &[u8], first: &Group, second: &Group) -> Option<Side> {
    let [first, second] = [first, second].map(positions_in);
    let all_before = |ones: &[usize], others: &[usize]| ones.iter().max() < others.iter().min();
    let of = |group: &[usize]| -> Vec<usize> {
        group
            .iter()
            .map(|position| labels[position - 1].into())
            .collect()
    };
    let (ones, others) = (of(&first), of(&second));
    let [rising, falling] = [all_before(&ones, &others), all_before(&others, &ones)];
    match (all_before(&first, &second), all_before(&second, &first)) {
        (true, _) if rising => Some(Side::Left),
        (true, _) if falling => Some(Side::Below),
        (_, true) if falling => Some(Side::Right),
        (_, true) if rising => Some(Side::Above),
        _ => None,
    }
}

#[test]
fn every_two_groups_of_every_plan_of_up_to_5_rooms() {
    let mut plans = 0;
    for n in 1..=5u8 {
        let records = every_code(n).map(|code| record_of(n, &code));
        for plan in records.filter_map(|record| plan_of(&record).ok()) {
            plans += 1;
            for first in every_group(n.into()).skip(1) {
                for second in every_group(n.into()).skip(1) {
                    let shared = first[0] & second[0] != 0;
                    let expected = match shared {
                        true => Err(Refusal::PositionsEqual),
                        false => Ok(by_extremes(&plan.labels, &first, &second)),
                    };
                    assert_eq!(plan.groups(&first, &second), expected, "{plan:?}");
                }
            }
        }
    }
    assert_eq!(plans, baxter_lists_up_to(5));
}

#[test]
fn each_refusal_in_its_order() {
    let refusal = |first: &[usize], second: &[usize]| of_the_pinwheel(first, second).unwrap_err();
    for outside in [6, 7, 8, 9, 64, 65, 255, 256] {
        // and an empty group, and a position in both
        assert_eq!(refusal(&[outside], &[]), Refusal::PositionOutside);
        assert_eq!(refusal(&[], &[1, outside]), Refusal::PositionOutside);
        assert_eq!(
            refusal(&[1, outside], &[1, outside]),
            Refusal::PositionOutside
        );
    }
    assert_eq!(refusal(&[], &[]), Refusal::EmptyGroup);
    assert_eq!(refusal(&[], &[1]), Refusal::EmptyGroup);
    assert_eq!(refusal(&[5], &[]), Refusal::EmptyGroup);
    assert_eq!(refusal(&[5], &[5]), Refusal::PositionsEqual);
    assert_eq!(refusal(&[1, 2, 3], &[3, 4, 5]), Refusal::PositionsEqual);
}

#[test]
fn a_record_is_judged_before_the_groups() {
    for (record, refusal) in REFUSED_RECORDS {
        for group in [group_of(&[1]), [0; 32], [255; 32]] {
            assert_eq!(groups(record, &group, &[0; 32]), Err(refusal));
            assert_eq!(groups(record, &[0; 32], &group), Err(refusal));
        }
    }
}

#[test]
fn all_255_rooms_of_a_row_in_two_groups() {
    let record = Walked::rising(255).record();
    let [first, second] = [1..=100, 101..=255].map(|range| group_of(&range.collect::<Vec<_>>()));
    assert_eq!(groups(&record, &first, &second), Ok(Some(Side::Left)));
    assert_eq!(groups(&record, &second, &first), Ok(Some(Side::Right)));
}
