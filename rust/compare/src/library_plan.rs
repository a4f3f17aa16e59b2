//! Records that are read by the library, and there and back through it alone.

use crate::lent::Entry;
use crate::rooms_in::library_numbering;
use nenturxo::{Refusal, Room, ROOMS_CAPACITY};

/// What the library reads in a record, the rooms as it wrote them.
#[derive(Clone, Debug, PartialEq, Eq)]
pub struct LibraryPlan {
    /// The labels by position.
    pub labels: Vec<u8>,
    /// The rooms by position.
    pub rooms: Vec<Room>,
}

impl LibraryPlan {
    /// The plan of a record, read in slices that are long enough.
    ///
    /// # Errors
    ///
    /// As [`nenturxo::record_in`].
    pub fn of(record: &[u8]) -> Result<Self, Refusal> {
        // Rooms with a name, so that it shows if none is written.
        let mut labels = vec![0; ROOMS_CAPACITY];
        let mut rooms = vec![Room::of_bytes(0xa5); ROOMS_CAPACITY];
        let n = nenturxo::record_in(record, &mut labels, &mut rooms)?;
        labels.truncate(n);
        rooms.truncate(n);
        Ok(Self { labels, rooms })
    }

    /// As [`Self::of`]; and hands the rooms back as they are, which must give
    /// the record, the labels and the positions by which they stand, and no
    /// name.
    ///
    /// # Errors
    ///
    /// As there.
    ///
    /// # Panics
    ///
    /// If anything else comes back.
    pub fn there_and_back(record: &[u8]) -> Result<Self, Refusal> {
        let plan = Self::of(record)?;
        assert!(plan.rooms.iter().all(|room| room.name == 0), "{plan:?}");

        let again = library_numbering(&plan.rooms).expect("a drawing is accepted");
        let n = plan.rooms.len();
        let positions: Vec<u8> = (1..=u8::MAX).take(n).collect();
        assert_eq!(again.record, record, "{plan:?}");
        assert_eq!(again.labels, plan.labels, "{plan:?}");
        assert_eq!(again.positions, positions, "{plan:?}");
        assert_eq!(again.names, vec![0; n], "{plan:?}");
        Ok(plan)
    }
}
