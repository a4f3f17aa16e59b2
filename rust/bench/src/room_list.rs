//! Room lists, accepted and refused.

use crate::outputs::Numbers;
use compare::of_library;
use compare::room_damage::{suited_plan, RoomDamage};
use reference::cases::walk::random_list;
use reference::cases::Random;
use reference::{Refusal, Room};

/// A room list, and the same as the library takes it.
pub struct RoomList {
    pub rooms: Vec<Room>,
    pub handed: Vec<nenturxo::Room>,
}

impl RoomList {
    pub fn new(rooms: Vec<Room>) -> Self {
        Self {
            handed: of_library::rooms(&rooms),
            rooms,
        }
    }

    /// A list of `n` rooms, at least 5, with one cause of refusal and no other:
    /// a random plan with damage, in a random order.
    pub fn refused(n: usize, refusal: Refusal, random: &mut Random) -> Self {
        loop {
            let labels = random_list(n - added_by(refusal), random).labels;
            let plan = suited_plan(&labels, random);
            let rooms = RoomDamage::only(refusal).rooms(&plan, random);
            // A room without size is at times one more.
            if rooms.len() == n {
                return Self::new(rooms);
            }
        }
    }

    /// What both versions answer the list with, in slices that are long enough.
    /// They must agree.
    pub fn answer(&self) -> Result<Numbers, Refusal> {
        let (mut library, mut rust) = (Numbers::new(), Numbers::new());
        let by_library = library.by_library(self).map_err(|r| r.number());
        let answer = rust.by_tuned(self);
        let expected = answer.map_err(|refusal| u32::from(refusal.number()));
        assert_eq!(by_library, expected, "{:?}", self.rooms);
        assert_eq!(library, rust, "{:?}", self.rooms);
        answer.map(|_| library)
    }
}

/// The number of rooms that the damage adds to a plan: one over others, or
/// four in the place of one.
fn added_by(refusal: Refusal) -> usize {
    match refusal {
        Refusal::SharedSquare => 1,
        Refusal::FourRoomsMeet => 3,
        _ => 0,
    }
}
