//! Whether one name is on two rooms.

use crate::Room;

/// Names up to this one get marks in a small store, however few they are.
const SMALL: u16 = 2047;

/// From so many rooms on, a mark for each name, whatever it is, beats comparing
/// all with all.
const MANY: usize = 48;

/// Whether one nonzero name is on two rooms, of which there are at most 255.
pub(super) fn share_a_name(rooms: &[Room]) -> bool {
    let greatest = rooms
        .iter()
        .fold(0, |greatest, room| room.name.max(greatest));
    match greatest {
        0 => false,
        1..=SMALL => mark::<32>(rooms),
        _ if rooms.len() < MANY => compare(rooms),
        _ => mark::<1024>(rooms),
    }
}

/// Compares each name with those in its eight and in the eights before. There
/// it meets itself, and whatever else it meets is on two rooms.
fn compare(rooms: &[Room]) -> bool {
    let mut names = [[0; 8]; MANY / 8];
    for (name, room) in names.as_flattened_mut().iter_mut().zip(rooms) {
        *name = room.name;
    }
    let (mut named, mut met) = (0, [0; 8]);
    for (place, room) in rooms.iter().enumerate() {
        let one = u16::from(room.name != 0);
        for eight in &names[..=place / 8] {
            for (met, &other) in met.iter_mut().zip(eight) {
                *met += u16::from(other == room.name) & one;
            }
        }
        named += one;
    }
    met.iter().sum::<u16>() > named
}

/// Marks each name but 0 in one bit of so many words, which are enough.
fn mark<const WORDS: usize>(rooms: &[Room]) -> bool {
    let mut marks = [0u64; WORDS];
    let mut twice = 0;
    for &Room { name, .. } in rooms {
        let word = &mut marks[usize::from(name) / 64 % WORDS];
        twice |= *word >> (name % 64) & 1;
        *word |= u64::from(name != 0) << (name % 64);
    }
    twice != 0
}
