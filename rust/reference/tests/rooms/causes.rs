//! The causes 1 to 5 to the letter, on every unit square and every point, and
//! then the cause 20.

use crate::help::ask;
use reference::cases::names::named;
use reference::cases::{rooms, Random};
use reference::{Refusal, Room};

/// The cause that a list has, if any. Nothing is left out by ranks here.
fn cause(rooms: &[Room]) -> Option<Refusal> {
    if rooms.is_empty() || rooms.len() > 255 {
        return Some(Refusal::ListLength);
    }
    if rooms.iter().any(|r| r.right <= r.left || r.top <= r.bottom) {
        return Some(Refusal::EmptyRoom);
    }
    let across = rooms.iter().map(|r| r.left).min()?..rooms.iter().map(|r| r.right).max()?;
    let up = rooms.iter().map(|r| r.bottom).min()?..rooms.iter().map(|r| r.top).max()?;
    let squares: Vec<usize> = across
        .flat_map(|x| up.clone().map(move |y| (x, y)))
        .map(|(x, y)| {
            let holds =
                |r: &&Room| (r.left..r.right).contains(&x) && (r.bottom..r.top).contains(&y);
            rooms.iter().filter(holds).count()
        })
        .collect();
    if squares.iter().any(|&count| count > 1) {
        return Some(Refusal::SharedSquare);
    }
    if squares.contains(&0) {
        return Some(Refusal::OpenSquare);
    }
    let meet = |x: u16, y: u16| {
        let corner = |r: &&Room| (r.left == x || r.right == x) && (r.bottom == y || r.top == y);
        rooms.iter().filter(corner).count() == 4
    };
    if rooms.iter().any(|r| meet(r.right, r.top)) {
        return Some(Refusal::FourRoomsMeet);
    }
    let on = |name: u16| rooms.iter().filter(|r| r.name == name).count();
    let is_shared = |r: &Room| r.name > 0 && on(r.name) > 1;
    rooms.iter().any(is_shared).then_some(Refusal::NameTwice)
}

/// How often each of the causes 1 to 5 was met; no cause is 0, and 20 is 6.
type Met = [usize; 7];

fn check(rooms: &[Room], met: &mut Met) {
    let expected = cause(rooms);
    let answer = ask(rooms);
    assert_eq!(answer.err(), expected, "{rooms:?}");
    let which = Refusal::OF_ROOMS
        .iter()
        .position(|&cause| Some(cause) == expected);
    met[which.map_or(0, |which| which + 1)] += 1;
}

#[test]
fn every_list_of_up_to_2_rooms_in_a_3_by_3_box() {
    let corners: Vec<[u16; 4]> = (0..256)
        .map(|code| [code % 4, code / 4 % 4, code / 16 % 4, code / 64])
        .collect();
    let mut met = [0; 7];
    for &first in &corners {
        check(&rooms(&[first]), &mut met);
        for &second in &corners {
            let pair = rooms(&[first, second]);
            check(&pair, &mut met);
            check(&named(&pair, &[7, 7]), &mut met);
        }
    }
    assert_eq!(met.iter().sum::<usize>(), 256 + 2 * 65_536);
    // 36 boxes; pairs are refused with 2 unless both are such boxes
    assert_eq!(met[2], 256 - 36 + 2 * (65_536 - 36 * 36));
    // a box alone; or one cut in two, across or up, in either order: 4 spans
    // with a place to cut them, by 6 spans the other way
    let cut_in_two = 2 * 2 * 4 * 6;
    assert_eq!(met[0], 36 + cut_in_two);
    assert_eq!(met[6], cut_in_two);
    assert!(met[3] > 600 && met[4] > 600, "{met:?}");
}

/// Cuts a box of 6 by 6 at a few places, then spoils it in some rounds.
#[test]
fn boxes_cut_at_random_and_spoiled() {
    let mut random = Random::from_seed(5);
    let mut met = [0; 7];
    for round in 0..40_000 {
        let mut corners = vec![[0, 0, 6, 6]];
        for _ in 0..random.below(7) {
            let at = random.below(corners.len());
            let way = random.below(2);
            let mut other = corners[at];
            if other[way + 2] - other[way] >= 2 {
                let cut = random.number(other[way] + 1, other[way + 2] - 1);
                corners[at][way + 2] = cut;
                other[way] = cut;
                corners.push(other);
            }
        }
        match round % 4 {
            0 => {
                let at = random.below(corners.len());
                corners[at][random.below(4)] = random.number(0, 7);
            }
            1 => {
                corners.remove(random.below(corners.len()));
            }
            _ => {}
        }
        random.shuffle(&mut corners);
        // Small numbers, so that in many lists two names are the same.
        let names: Vec<u16> = corners.iter().map(|_| random.number(0, 12)).collect();
        check(&named(&rooms(&corners), &names), &mut met);
    }
    assert!(met.iter().all(|&count| count > 500), "{met:?}");
}
