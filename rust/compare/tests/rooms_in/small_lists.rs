//! Every list of small rooms that is short enough, and random ones.

use compare::{GivenRooms, Tally};
use reference::cases::names::named;
use reference::cases::rooms;
use reference::Refusal;

#[test]
fn every_list_of_up_to_2_rooms_in_a_3_by_3_box() {
    let mut tally = Tally::new("lists of up to 2 rooms in a 3 by 3 box");
    let corners: Vec<[u16; 4]> = (0..256)
        .map(|code| [code % 4, code / 4 % 4, code / 16 % 4, code / 64])
        .collect();
    for &first in &corners {
        let _ = tally.rooms_in(&GivenRooms::new(rooms(&[first])), [1; 4]);
        for &second in &corners {
            let pair = rooms(&[first, second]);
            for names in [[0, 0], [7, 7], [7, 0]] {
                let given = GivenRooms::new(named(&pair, &names));
                let _ = tally.rooms_in(&given, [2; 4]);
            }
        }
    }
    // 36 boxes are rooms; pairs are refused with 2 unless both are.
    let empty = 256 - 36 + 3 * (65_536 - 36 * 36);
    assert_eq!(tally.refused(Refusal::EmptyRoom), empty);
    // A box alone, or one cut in two, across or up, in either order: 4 spans
    // with a place to cut them, by 6 spans the other way.
    let cut_in_two = 2 * 2 * 4 * 6;
    assert_eq!(tally.accepted(), 36 + 2 * cut_in_two);
    assert_eq!(tally.refused(Refusal::NameTwice), cut_in_two);
    tally.finish(256 + 3 * 65_536);
}

#[test]
fn every_list_of_3_rooms_in_a_2_by_2_box() {
    let mut tally = Tally::new("lists of 3 rooms in a 2 by 2 box");
    let spans = [(0, 1), (1, 2), (0, 2)];
    let boxes: Vec<[u16; 4]> = spans
        .iter()
        .flat_map(|x| spans.iter().map(move |y| [x.0, y.0, x.1, y.1]))
        .collect();
    for first in 0..9 {
        for second in 0..9 {
            for third in 0..9 {
                let list = [first, second, third].map(|at: usize| boxes[at]);
                tally.rooms(&GivenRooms::new(rooms(&list)));
            }
        }
    }
    // One half of the box and the other one cut: 4 plans in 6 orders each.
    assert_eq!(tally.accepted(), 2 * 4 * 6);
    tally.finish(3 * 9 * 9 * 9);
}

#[test]
fn any_corners_at_all() {
    const LISTS: usize = 30_000;
    let name = "lists of any corners at all";
    let tally = Tally::of_rounds(name, 121, 0..LISTS, |tally, random, round| {
        // Mostly tiny numbers, so that some lists are floorplans.
        let most = [1, 2, 3, 65_535][round % 4];
        let mut number = || u16::try_from(random.between(0, most)).expect("16 bits");
        let mut room = || [number(), number(), number(), number()];
        let list: Vec<[u16; 4]> = (0..round % 7).map(|_| room()).collect();
        tally.rooms(&GivenRooms::new(rooms(&list)));
        // The same without empty rooms.
        let upright = list.iter().map(|&[left, bottom, width, height]| {
            let [right, top] = [(left, width), (bottom, height)]
                .map(|(start, length)| start.saturating_add(length / 2).saturating_add(1));
            [left.min(right - 1), bottom.min(top - 1), right, top]
        });
        let upright = rooms(&upright.collect::<Vec<_>>());
        tally.rooms(&GivenRooms::new(&upright[..]));
        // And with small names, which are often the same.
        let names: Vec<u16> = upright.iter().map(|_| random.number(0, 3)).collect();
        tally.rooms(&GivenRooms::new(named(&upright, &names)));
    });
    tally.expect_often(1000, &Refusal::OF_ROOMS[..4]);
    tally.expect_often(10, &[Refusal::FourRoomsMeet]);
    tally.expect_often(100, &[Refusal::NameTwice]);
    assert!(tally.accepted() > 1000);
    tally.finish(3 * 3 * LISTS);
}
