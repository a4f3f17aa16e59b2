//! Names for rooms.

use super::{baxter_lists, each_permutation, every_list, Random};
use crate::{drawing, Room};

/// The rooms with these names, each in the place of its own.
#[must_use]
pub fn named(rooms: &[Room], names: &[u16]) -> Vec<Room> {
    let named = rooms.iter().zip(names);
    named.map(|(&room, &name)| Room { name, ..room }).collect()
}

/// So many different names, none of them 0: the multiples of `step`, a power of
/// two, then what is 1 more than a multiple, and so on. With 1 these are the
/// numbers from 1 on; else many of them have the same low bits.
#[must_use]
pub fn multiples(step: u16, n: usize) -> Vec<u16> {
    let numbers = 1 << 16;
    (1..=n)
        .map(|count| count * usize::from(step))
        .map(|product| (product % numbers + product / numbers) as u16)
        .collect()
}

/// So many names from the last one down.
#[must_use]
pub fn last_names(n: usize) -> Vec<u16> {
    (0..=u16::MAX).rev().take(n).collect()
}

/// So many different names at random, none of them 0.
pub fn random_names(n: usize, random: &mut Random) -> Vec<u16> {
    let mut is_taken = vec![false; 1 << 16];
    let mut names = Vec::new();
    while names.len() < n {
        let name = random.number(1, u16::MAX);
        if !std::mem::replace(&mut is_taken[usize::from(name)], true) {
            names.push(name);
        }
    }
    names
}

/// So many names, of which only 0 may occur often: in some lists all are 0, in
/// some a few, in some none; and the others are small numbers, large ones, such
/// with the same low bits, or any.
pub fn some_names(n: usize, random: &mut Random) -> Vec<u16> {
    let mut names = match random.below(6) {
        0 => vec![0; n],
        1 => multiples(1, n),
        2 => multiples(256, n),
        3 => multiples(1024, n),
        4 => last_names(n),
        _ => random_names(n, random),
    };
    let unnamed = random.pick(&[0, 0, n / 4, n - n / 4]);
    names[..unnamed].fill(0);
    random.shuffle(&mut names);
    names
}

/// Puts one name that is not 0 on two of the rooms, of which there are at least
/// two: one that is there or, on an unnamed room, any.
pub fn put_one_twice(rooms: &mut [Room], random: &mut Random) {
    let one = random.below(rooms.len());
    let other = (one + random.between(1, rooms.len() - 1)) % rooms.len();
    if rooms[one].name == 0 {
        let any = random.number(1, u16::MAX);
        rooms[one].name = random.pick(&[1, any, u16::MAX]);
    }
    rooms[other].name = rooms[one].name;
}

/// The names that the rooms of small plans are given in every way.
const FEW_NAMES: [u16; 4] = [0, 1, 2, u16::MAX];

/// Calls `visit` with the rooms of every drawing of up to 4 labels in every
/// order, each time with every list of as many names out of a few.
pub fn each_naming(mut visit: impl FnMut(&[Room], &[u16])) {
    for n in 1..=4 {
        for drawn in baxter_lists(n).iter().map(|labels| drawing(labels)) {
            each_permutation(n, |order| {
                let rooms: Vec<Room> = order.iter().map(|&at| drawn[usize::from(at) - 1]).collect();
                for which in every_list(3, u32::from(n)) {
                    let names = which.iter().map(|&name| FEW_NAMES[usize::from(name)]);
                    visit(&rooms, &names.collect::<Vec<u16>>());
                }
            });
        }
    }
}

/// How often [`each_naming`] calls: for 1, 2, 6 and 22 drawings in so many
/// orders with so many lists of names.
pub const NAMINGS: usize = 4 + 2 * 2 * 16 + 6 * 6 * 64 + 22 * 24 * 256;

/// In how many of these calls no name but 0 is on two rooms: each of the three
/// others is on at most one.
pub const NAMINGS_WITHOUT_REPEAT: usize = 4 + 2 * 2 * 13 + 6 * 6 * 34 + 22 * 24 * 73;

#[cfg(test)]
mod tests {
    use super::{last_names, multiples, named, put_one_twice, random_names, some_names};
    use crate::cases::{rooms, Random};
    use std::collections::HashSet;

    /// How many rooms too many have a name that is not 0.
    fn too_many(names: &[u16]) -> usize {
        let named: Vec<u16> = names.iter().copied().filter(|&name| name != 0).collect();
        named.len() - named.iter().collect::<HashSet<_>>().len()
    }

    #[test]
    fn no_name_is_there_twice() {
        let mut random = Random::from_seed(41);
        for n in [1, 2, 5, 63, 64, 65, 255, 256, 1000] {
            let lists = [
                multiples(1, n),
                multiples(256, n),
                multiples(1024, n),
                last_names(n),
                random_names(n, &mut random),
            ];
            for names in lists {
                assert_eq!(names.len(), n);
                assert!(!names.contains(&0), "{names:?}");
                assert_eq!(too_many(&names), 0, "{names:?}");
            }
        }
    }

    #[test]
    fn only_0_is_there_often() {
        let mut random = Random::from_seed(42);
        let mut lists = [0; 3];
        for round in 0..600 {
            let n = 1 + round % 60;
            let names = some_names(n, &mut random);
            assert_eq!((names.len(), too_many(&names)), (n, 0), "{names:?}");
            let unnamed = names.iter().filter(|&&name| name == 0).count();
            lists[usize::from(unnamed > 0) + usize::from(unnamed == n)] += 1;
        }
        assert!(lists.iter().all(|&count| count > 50), "{lists:?}");
    }

    #[test]
    fn one_name_is_put_on_two_rooms() {
        let mut random = Random::from_seed(43);
        for n in 2..=40 {
            for _ in 0..10 {
                let unnamed = rooms(&vec![[0, 0, 1, 1]; n]);
                let mut rooms = named(&unnamed, &some_names(n, &mut random));
                put_one_twice(&mut rooms, &mut random);
                let names: Vec<u16> = rooms.iter().map(|room| room.name).collect();
                assert_eq!(too_many(&names), 1, "{names:?}");
            }
        }
    }
}
