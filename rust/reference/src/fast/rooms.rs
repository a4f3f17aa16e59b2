//! "Rooms in".
//!
//! The rooms are sorted twice and gone through once, which tells whether they
//! are a floorplan; if they are not, it is asked what they are instead. On the
//! way the segments come up one by one. Each inner segment stands for two
//! rooms that follow each other in the order of labels, and for two in the
//! order of positions, so afterwards both orders are read off in one go, and
//! the names with them.

mod links;
mod names;
mod sorting;

use super::basics::BODY;
use crate::{Numbered, Refusal, Room};
use links::{links, Links};
use names::share_a_name;

/// Rooms in, with the answers of [`crate::rooms_in`].
///
/// # Errors
///
/// As there.
// Not inlined, so that a benchmark pays for a call as with a library.
#[inline(never)]
pub fn rooms_in(rooms: &[Room], slices: Numbered<'_>) -> Result<usize, Refusal> {
    let kind = u8::try_from(rooms.len()).map_err(|_| Refusal::ListLength)?;
    if kind == 0 {
        return Err(Refusal::ListLength);
    }
    let outline = outline(rooms).ok_or(Refusal::EmptyRoom)?;
    // The store is cleared before each use, so a small plan gets a small one.
    match kind {
        0..=15 => enter::<16, 17>(rooms, outline, slices),
        16..=63 => enter::<64, 65>(rooms, outline, slices),
        64..=255 => enter::<256, 257>(rooms, outline, slices),
    }
}

/// The smallest box round all rooms, or `None` if one of them is empty.
fn outline(rooms: &[Room]) -> Option<Room> {
    let mut outline = Room::from([u16::MAX, u16::MAX, 0, 0]);
    let mut empty = false;
    for room in rooms {
        empty |= room.right <= room.left;
        empty |= room.top <= room.bottom;
        outline.left = outline.left.min(room.left);
        outline.bottom = outline.bottom.min(room.bottom);
        outline.right = outline.right.max(room.right);
        outline.top = outline.top.max(room.top);
    }
    (!empty).then_some(outline)
}

/// What is left to do for fewer than `STORE` rooms that are not empty.
/// `PLACES` is one more.
fn enter<const STORE: usize, const PLACES: usize>(
    rooms: &[Room],
    outline: Room,
    slices: Numbered<'_>,
) -> Result<usize, Refusal> {
    let Some(links) = links::<STORE, PLACES>(rooms, outline) else {
        return Err(cause(rooms, outline));
    };
    if share_a_name(rooms) {
        return Err(Refusal::NameTwice);
    }
    let n = rooms.len();
    let length = 1 + (3 * n - 3).div_ceil(8);
    let record = slices.record.get_mut(..length).ok_or(Refusal::SliceShort)?;
    let labels = slices.labels.get_mut(..n).ok_or(Refusal::SliceShort)?;
    let positions = slices.positions.get_mut(..n).ok_or(Refusal::SliceShort)?;
    let names = slices.names.get_mut(..n).ok_or(Refusal::SliceShort)?;

    let body = write_orders(&links, rooms, labels, positions, names);
    record[0] = n as u8;
    record[1..].copy_from_slice(&body[..length - 1]);
    Ok(length)
}

/// Writes the label and the position of each room and the name at each
/// position, and gives the body of the record.
fn write_orders<const STORE: usize>(
    links: &Links<STORE>,
    rooms: &[Room],
    labels: &mut [u8],
    positions: &mut [u8],
    names: &mut [u16],
) -> [u8; BODY] {
    let (mut by_label, mut by_position) = (links.first_label, links.first_position);
    labels[usize::from(by_label)] = 1;
    positions[usize::from(by_position)] = 1;
    names[0] = rooms[usize::from(by_position)].name;

    let numbers: [u8; 254] = std::array::from_fn(|place| place as u8 + 2);
    let mut body = [0; BODY];
    let eights = numbers.chunks(8).zip(names[1..].chunks_mut(8));
    for (bytes, (numbers, names)) in body.chunks_exact_mut(3).zip(eights) {
        let mut bits = 0;
        for (&number, name) in numbers.iter().zip(&mut *names) {
            by_label = links.next_label(by_label);
            by_position = links.next_position(by_position);
            labels[usize::from(by_label)] = number;
            positions[usize::from(by_position)] = number;
            *name = rooms[usize::from(by_position)].name;
            bits = bits << 3 | links.triple(by_position);
        }
        bits <<= 3 * (8 - names.len());
        bytes.copy_from_slice(&bits.to_be_bytes()[1..]);
    }
    body
}

/// Which of 3, 4 and 5 it is, for rooms with one of the three causes.
#[cold]
fn cause(rooms: &[Room], outline: Room) -> Refusal {
    let overlap = |a: &Room, b: &Room| {
        (a.left < b.right && b.left < a.right) & (a.bottom < b.top && b.bottom < a.top)
    };
    for (at, room) in rooms.iter().enumerate() {
        if rooms[..at].iter().any(|other| overlap(room, other)) {
            return Refusal::SharedSquare;
        }
    }
    let area = |room: &Room| u64::from(room.right - room.left) * u64::from(room.top - room.bottom);
    if rooms.iter().map(area).sum::<u64>() < area(&outline) {
        Refusal::OpenSquare
    } else {
        Refusal::FourRoomsMeet
    }
}

#[cfg(test)]
mod tests {
    use crate::cases::names::{named, put_one_twice, some_names};
    use crate::cases::walk::random_list;
    use crate::cases::{baxter_lists_up_to, every_code, unwritten, Random};
    use crate::{drawing, fast, labels_of, numbering_of, Refusal, Room};

    /// Compares the two versions on slices of every length that matters, and
    /// gives the answer to long ones.
    fn compare(rooms: &[Room]) -> Result<usize, Refusal> {
        let defined = numbering_of(rooms);
        let n = rooms.len();
        let length = 1 + (3 * n).saturating_sub(3).div_ceil(8);
        let less = n.saturating_sub(1);
        let mut answer = Err(Refusal::SliceShort);
        for lengths in [
            [length - 1, n, n, n],
            [length, less, n, n],
            [length, n, less, n],
            [length, n, n, less],
            [length + 1, n + 1, n + 1, n + 1],
        ] {
            let (mut expected, mut found) = (unwritten(lengths), unwritten(lengths));
            answer = match &defined {
                Ok(numbering) => numbering.write(expected.slices()),
                Err(refusal) => Err(*refusal),
            };
            let by_fast = fast::rooms_in(rooms, found.slices());
            assert_eq!(by_fast, answer, "{rooms:?} into {lengths:?}");
            assert_eq!(found, expected, "{rooms:?} into {lengths:?}");
        }
        answer
    }

    #[test]
    fn agrees_with_the_definitions_on_every_list_of_up_to_2_rooms_in_a_3_by_3_box() {
        let numbers = |code: u16| [code % 4, code / 4 % 4, code / 16 % 4, code / 64];
        let rooms: Vec<Room> = (0..256).map(numbers).map(Room::from).collect();
        assert_eq!(compare(&[]), Err(Refusal::ListLength));
        for &first in &rooms {
            let _ = compare(&[first]);
            for &second in &rooms {
                let _ = compare(&[first, second]);
            }
        }
    }

    #[test]
    fn agrees_with_the_definitions_on_every_list_of_4_rooms_in_a_2_by_2_box() {
        let spans = [(0, 1), (1, 2), (0, 2)];
        let boxes = spans.map(|x| spans.map(|y| Room::from([x.0, y.0, x.1, y.1])));
        let boxes = boxes.concat();
        let mut meet = 0;
        for code in 0..9usize.pow(4) {
            let list = [0, 1, 2, 3].map(|place| boxes[code / 9usize.pow(place) % 9]);
            meet += usize::from(compare(&list) == Err(Refusal::FourRoomsMeet));
        }
        assert_eq!(meet, 24, "the four unit squares in every order");
    }

    #[test]
    fn agrees_with_the_definitions_on_every_drawing_of_up_to_6_labels() {
        let mut random = Random::from_seed(2);
        let mut drawings = 0;
        for n in 1..=6 {
            for (number, code) in every_code(n).enumerate() {
                if let Ok(labels) = labels_of(&code) {
                    let names = some_names(labels.len(), &mut random);
                    let mut rooms = named(&drawing(&labels), &names);
                    rooms.rotate_left(number % labels.len());
                    assert!(compare(&rooms).is_ok(), "{rooms:?}");
                    drawings += 1;
                }
            }
        }
        assert_eq!(drawings, baxter_lists_up_to(6));
    }

    #[test]
    fn agrees_with_the_definitions_on_long_lists() {
        let mut random = Random::from_seed(1);
        for n in [14, 15, 16, 17, 62, 63, 64, 65, 254, 255, 255] {
            let rooms = drawing(&random_list(n, &mut random).labels);
            let mut rooms = named(&rooms, &some_names(n, &mut random));
            random.shuffle(&mut rooms);
            assert!(compare(&rooms).is_ok(), "{rooms:?}");
            // A room left out, and one twice.
            let left_out = rooms.pop();
            let _ = compare(&rooms);
            rooms.extend(left_out);
            rooms[0] = rooms[1];
            assert_eq!(compare(&rooms), Err(Refusal::SharedSquare), "{rooms:?}");
        }
    }

    #[test]
    fn agrees_with_the_definitions_on_names_in_long_lists() {
        let mut random = Random::from_seed(3);
        for n in [2, 15, 16, 40, 47, 48, 49, 63, 64, 65, 255] {
            let rooms = drawing(&random_list(n, &mut random).labels);
            for _ in 0..8 {
                let mut rooms = named(&rooms, &some_names(n, &mut random));
                assert!(compare(&rooms).is_ok(), "{rooms:?}");
                put_one_twice(&mut rooms, &mut random);
                assert_eq!(compare(&rooms), Err(Refusal::NameTwice), "{rooms:?}");
            }
        }
    }
}
