//! Long lists.

use crate::help::{ask, label_list, standings};
use reference::cases::walk::{random_list, Walked};
use reference::cases::Random;
use reference::{drawing, labels_in, plan_of, Refusal, Room};
use std::collections::BTreeSet;

/// 255 rooms: the largest box, cut again and again. No two cuts are on one
/// line, so no four rooms meet at a point.
fn cut_254_times(random: &mut Random) -> Vec<Room> {
    let mut rooms = vec![Room::from([0, 0, 65_535, 65_535])];
    let mut across = BTreeSet::new();
    let mut up = BTreeSet::new();
    while rooms.len() < 255 {
        let at = random.below(rooms.len());
        let mut other = rooms[at];
        if random.below(2) == 0 {
            let cut = random.number(other.left, other.right);
            if other.left < cut && cut < other.right && across.insert(cut) {
                rooms[at].right = cut;
                other.left = cut;
                rooms.push(other);
            }
        } else {
            let cut = random.number(other.bottom, other.top);
            if other.bottom < cut && cut < other.top && up.insert(cut) {
                rooms[at].top = cut;
                other.bottom = cut;
                rooms.push(other);
            }
        }
    }
    random.shuffle(&mut rooms);
    rooms
}

#[test]
fn the_record_of_255_rooms_stands_for_their_label_list() {
    let mut random = Random::from_seed(7);
    for _ in 0..20 {
        let rooms = cut_254_times(&mut random);
        let answer = ask(&rooms).unwrap();
        assert_eq!(answer.record.len(), 97);
        let plan = plan_of(&answer.record).unwrap();
        assert_eq!(plan.labels, label_list(&answer));

        // The drawing of the record is an equal floorplan, and its rooms stand
        // to each other and touch in the same way.
        let again = ask(&plan.rooms).unwrap();
        assert_eq!(again.record, answer.record);
        assert_eq!(again.labels, plan.labels);
        assert_eq!(again.positions, (1..=255).collect::<Vec<u8>>());
        let by_position = standings(&rooms, &answer.positions);
        assert_eq!(by_position.len(), 255 * 254);
        assert!(by_position == standings(&plan.rooms, &again.positions));
    }
}

#[test]
fn the_drawings_of_long_walks_give_their_lists_back() {
    let mut random = Random::from_seed(9);
    for n in (7..255).step_by(8).chain([255; 20]) {
        let labels = random_list(n, &mut random).labels;
        let rooms = drawing(&labels);
        let mut places: Vec<usize> = (0..n).collect();
        random.shuffle(&mut places);
        let list: Vec<Room> = places.iter().map(|&place| rooms[place]).collect();

        let answer = ask(&list).unwrap();
        assert_eq!(label_list(&answer), labels);
        for (at, &place) in places.iter().enumerate() {
            assert_eq!(answer.labels[at], labels[place]);
            assert_eq!(usize::from(answer.positions[at]), place + 1);
        }
        let mut record = [0; 97];
        let length = labels_in(&labels, &mut record).unwrap();
        assert_eq!(answer.record, record[..length]);
    }
}

#[test]
fn a_row_and_a_pile_of_255_rooms() {
    for Walked { labels, .. } in [Walked::rising(255), Walked::falling(255)] {
        let answer = ask(&drawing(&labels)).unwrap();
        assert_eq!(answer.labels, labels);
        assert_eq!(answer.record.len(), 97);
    }
}

#[test]
fn any_corners_at_all_are_answered() {
    let mut random = Random::from_seed(11);
    let mut accepted = 0;
    for round in 0..3000 {
        // Mostly tiny numbers, so that some lists are floorplans.
        let most = [2, 3, 5, 65_535][round % 4];
        let list: Vec<Room> = (0..random.below(5))
            .map(|_| Room {
                left: random.number(0, most),
                bottom: random.number(0, most),
                right: random.number(0, most),
                top: random.number(0, most),
                name: random.number(0, most),
            })
            .collect();
        match ask(&list) {
            Ok(_) => accepted += 1,
            Err(refusal) => assert!(Refusal::OF_ROOMS.contains(&refusal)),
        }
    }
    assert!(accepted > 10, "{accepted}");
}
