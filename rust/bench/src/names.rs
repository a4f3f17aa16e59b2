//! Room lists by the names of their rooms.

use crate::room_list::RoomList;
use compare::Floorplan;
use reference::cases::names::{multiples, random_names};
use reference::cases::walk::random_list;
use reference::cases::Random;

/// A kind of names, of which no one but 0 is on two rooms.
pub struct Kind {
    pub name: &'static str,
    names: fn(usize, &mut Random) -> Vec<u16>,
}

/// The kinds: no names; the least ones; any; and those that have the same low
/// bits, of which whoever looks them up in a table by these bits finds many in
/// one place.
pub const NAMES: [Kind; 5] = [
    Kind {
        name: "unnamed",
        names: |n, _| vec![0; n],
    },
    Kind {
        name: "1 to n",
        names: |n, _| multiples(1, n),
    },
    Kind {
        name: "random",
        names: random_names,
    },
    Kind {
        name: "times 256",
        names: |n, _| multiples(256, n),
    },
    Kind {
        name: "times 1024",
        names: |n, _| multiples(1024, n),
    },
];

impl Kind {
    /// Random plans of `n` rooms with names of this kind, in a random order.
    /// Both versions of Rooms in accept them alike. The plans are the same for
    /// all kinds.
    pub fn lists(&self, count: usize, n: usize) -> Vec<RoomList> {
        let mut random = Random::from_seed(n as u64);
        let lists = (0..count).map(|_| {
            let mut plan = Floorplan::drawn(&random_list(n, &mut random).labels);
            plan.stretch(&mut random);
            plan.put_names(&(self.names)(n, &mut random.clone()));
            plan.shuffle(&mut random);
            RoomList::new(plan.rooms())
        });
        let lists: Vec<RoomList> = lists.collect();
        for list in &lists {
            assert!(list.answer().is_ok(), "{:?}", list.rooms);
        }
        lists
    }
}
