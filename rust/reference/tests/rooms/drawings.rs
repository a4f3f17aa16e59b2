//! The rooms of a drawing give the list back that they were drawn from.

use crate::help::{ask, label_list};
use reference::cases::{baxter_lists, baxter_lists_up_to, Random};
use reference::{drawing, labels_in, Room};

/// Calls `visit` with each Baxter list of up to 6 labels, the record of that
/// list and its drawing.
fn each_drawing(mut visit: impl FnMut(&[u8], &[u8], &[Room])) {
    let mut drawings = 0;
    for n in 1..=6 {
        for labels in baxter_lists(n) {
            let mut record = [0; 97];
            let length = labels_in(&labels, &mut record).unwrap();
            visit(&labels, &record[..length], &drawing(&labels));
            drawings += 1;
        }
    }
    assert_eq!(drawings, baxter_lists_up_to(6));
}

#[test]
fn every_drawing_of_up_to_6_labels() {
    each_drawing(|labels, record, rooms| {
        let answer = ask(rooms).unwrap();
        assert_eq!(answer.record, record);
        assert_eq!(answer.labels, labels);
        let positions: Vec<u8> = (1..).take(labels.len()).collect();
        assert_eq!(answer.positions, positions);
    });
}

/// Checks the answer for the drawn rooms in the order of `places`, each
/// corner moved by `moved`.
fn check(labels: &[u8], record: &[u8], places: &[usize], moved: impl Fn(usize) -> Room) {
    let list: Vec<Room> = places.iter().map(|&place| moved(place)).collect();
    let answer = ask(&list).unwrap();
    assert_eq!(answer.record, record, "{list:?}");
    assert_eq!(label_list(&answer), labels, "{list:?}");
    for (at, &place) in places.iter().enumerate() {
        assert_eq!(answer.labels[at], labels[place], "{list:?}");
        assert_eq!(usize::from(answer.positions[at]), place + 1, "{list:?}");
    }
}

/// A strictly rising function on the numbers 0 to `last`: its values.
fn rising(last: u16, random: &mut Random) -> Vec<u16> {
    let mut value = random.number(0, 20_000);
    (0..=last)
        .map(|_| {
            value += random.number(1, 4000);
            value
        })
        .collect()
}

#[test]
fn every_drawing_shuffled_shifted_and_stretched() {
    let mut random = Random::from_seed(1);
    each_drawing(|labels, record, rooms| {
        let n = u16::try_from(labels.len()).unwrap();
        let mut places: Vec<usize> = (0..rooms.len()).collect();
        for _ in 0..6 {
            random.shuffle(&mut places);
            check(labels, record, &places, |place| rooms[place]);

            let (x, y) = (random.number(0, 65_535 - n), 65_535 - n);
            check(labels, record, &places, |place| Room {
                left: rooms[place].left + x,
                bottom: rooms[place].bottom + y,
                right: rooms[place].right + x,
                top: rooms[place].top + y,
                ..rooms[place]
            });

            let (across, up) = (rising(n, &mut random), rising(n, &mut random));
            check(labels, record, &places, |place| Room {
                left: across[usize::from(rooms[place].left)],
                bottom: up[usize::from(rooms[place].bottom)],
                right: across[usize::from(rooms[place].right)],
                top: up[usize::from(rooms[place].top)],
                ..rooms[place]
            });
        }
    });
}
