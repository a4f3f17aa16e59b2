//! Groups of positions.

use super::Random;
use crate::{Group, Plan, Side};

/// The group of these positions, each from 1 to 256.
///
/// # Panics
///
/// If there is another one.
#[must_use]
pub fn group_of(positions: &[usize]) -> Group {
    let mut group = [0; 32];
    for position in positions {
        group[(position - 1) / 8] |= 1 << ((position - 1) % 8);
    }
    group
}

/// Every group of positions from 1 to `last`, which is at most 32, the empty one
/// too.
pub fn every_group(last: u32) -> impl Iterator<Item = Group> + Clone {
    (0..1u64 << last).map(|bits| {
        let mut group = [0; 32];
        group[..8].copy_from_slice(&bits.to_le_bytes());
        group
    })
}

/// Two groups of rooms of a plan that has two or more: neither is empty, and no
/// position is in both. In some pairs all rooms of one are on one side of all of
/// the other, or all but one; some are parted by their positions or by their
/// labels, some are single rooms, and some any.
pub fn some_groups(plan: &Plan, random: &mut Random) -> [Group; 2] {
    let n = plan.labels.len();
    let mut groups = match random.below(8) {
        0 => parted(n, random, |_, random| random.below(3)),
        1 => parted_by_position(n, random),
        2 => parted_by_label(plan, random),
        3..=5 => beside_a_room(plan, random),
        6 => with_one_more(beside_a_room(plan, random), n, random),
        _ => two_rooms(n, random),
    };
    if groups.iter().any(Vec::is_empty) {
        groups = two_rooms(n, random);
    }
    if random.below(2) == 0 {
        groups.reverse();
    }
    groups.map(|positions| group_of(&positions))
}

/// Two groups of rooms of a plan that has two or more, of which all rooms of the
/// first one are on the same side of all rooms of the second one.
pub fn related_groups(plan: &Plan, random: &mut Random) -> [Group; 2] {
    loop {
        let groups = beside_a_room(plan, random);
        if !groups.iter().any(Vec::is_empty) {
            return groups.map(|positions| group_of(&positions));
        }
    }
}

/// Some of the positions from 1 to `n`, at least 2, up to one of them, and some
/// of those after it, in either order.
pub fn parted_groups(n: usize, random: &mut Random) -> [Group; 2] {
    let mut groups = parted_by_position(n, random);
    if random.below(2) == 0 {
        groups.reverse();
    }
    groups.map(|positions| group_of(&positions))
}

/// Two different positions from 1 to `n`, at least 2, each as a group.
pub fn single_rooms(n: usize, random: &mut Random) -> [Group; 2] {
    two_rooms(n, random).map(|positions| group_of(&positions))
}

/// Two lists of positions.
type Positions = [Vec<usize>; 2];

/// The positions from 1 to `n` for which `part` gives 0, and those for which it
/// gives 1.
fn parted(
    n: usize,
    random: &mut Random,
    mut part: impl FnMut(usize, &mut Random) -> usize,
) -> Positions {
    let parts: Vec<usize> = (1..=n).map(|position| part(position, random)).collect();
    [0, 1].map(|which| (1..=n).filter(|p| parts[p - 1] == which).collect())
}

/// Some of the positions up to one, and some of those after it.
fn parted_by_position(n: usize, random: &mut Random) -> Positions {
    let last = random.between(1, n - 1);
    let parts = parted(n, random, |position, _| usize::from(position > last));
    parts.map(|positions| some_of(positions, random))
}

/// Some of the rooms with labels up to one, and some of the others.
fn parted_by_label(plan: &Plan, random: &mut Random) -> Positions {
    let labels = &plan.labels;
    let last = random.pick(labels);
    let parts = parted(labels.len(), random, |position, _| {
        usize::from(labels[position - 1] > last)
    });
    parts.map(|positions| some_of(positions, random))
}

/// Some of the rooms on one side of a room, and of that room with those on its
/// opposite side.
fn beside_a_room(plan: &Plan, random: &mut Random) -> Positions {
    let n = plan.labels.len();
    let (room, side) = (random.below(n), random.pick(&Side::ALL));
    let parts = parted(n, random, |position, _| {
        if position - 1 == room {
            return 1;
        }
        match plan.side(position - 1, room) {
            there if there == side => 0,
            there if there == side.opposite() => 1,
            _ => 2,
        }
    });
    parts.map(|positions| some_of(positions, random))
}

/// All of these, or about half, or a few, or one.
fn some_of(mut positions: Vec<usize>, random: &mut Random) -> Vec<usize> {
    if positions.is_empty() {
        return positions;
    }
    let among = random.pick(&[1, 1, 2, 8, positions.len()]);
    let one = random.pick(&positions);
    positions.retain(|&position| position == one || random.below(among) == 0);
    positions
}

/// Two groups and one more position up to `n` in one of them, if there is one.
fn with_one_more(mut groups: Positions, n: usize, random: &mut Random) -> Positions {
    let position = random.between(1, n);
    if !groups.iter().any(|group| group.contains(&position)) {
        groups[random.below(2)].push(position);
    }
    groups
}

/// Two different positions.
fn two_rooms(n: usize, random: &mut Random) -> Positions {
    let first = random.below(n);
    let second = (first + random.between(1, n - 1)) % n;
    [first, second].map(|place| vec![place + 1])
}

#[cfg(test)]
mod tests {
    use super::{every_group, group_of, some_groups};
    use crate::cases::walk::{list_in_turn, some_count};
    use crate::cases::Random;
    use crate::{plan_of, positions_in, Side};
    use std::collections::HashSet;

    #[test]
    fn a_group_of_positions_has_these_positions() {
        for positions in [&[][..], &[1], &[256], &[1, 2, 8, 9, 64, 65, 255, 256]] {
            assert_eq!(positions_in(&group_of(positions)), positions);
        }
    }

    #[test]
    fn every_group_of_small_positions_comes_up_once() {
        let groups: HashSet<Vec<usize>> =
            every_group(5).map(|group| positions_in(&group)).collect();
        assert_eq!((every_group(5).count(), groups.len()), (32, 32));
        assert!(groups
            .iter()
            .flatten()
            .all(|position| (1..=5).contains(position)));
    }

    #[test]
    fn groups_of_rooms_get_every_answer() {
        let mut random = Random::from_seed(211);
        let mut answers = [0; 5];
        for round in 0..3_000 {
            let n = some_count(&mut random).max(2);
            let record = list_in_turn(n, round, &mut random).record();
            let plan = plan_of(&record).expect("walks are accepted");
            let [first, second] = some_groups(&plan, &mut random);
            let side = plan.groups(&first, &second).expect("groups of rooms");
            let which = Side::ALL.iter().position(|&there| side == Some(there));
            answers[which.unwrap_or(4)] += 1;
        }
        assert!(answers.iter().all(|&count| count > 300), "{answers:?}");
    }
}
