//! Records with sizes, and corners, as they are lent to the calls of M-108.

use crate::lent::{shown, Input, Surroundings};
use reference::cases::sizes::{Placing, SizedRecord};
use std::fmt;

/// The three input slices of a record with sizes, with their surroundings.
pub(crate) struct LentSizes {
    record: Input<u8>,
    widths: Input<u16>,
    heights: Input<u16>,
}

impl LentSizes {
    /// The buffers before a call.
    pub(crate) fn new(sized: &SizedRecord, around: Surroundings) -> Self {
        Self {
            record: Input::new(&sized.record, around),
            widths: Input::new(&sized.widths, around),
            heights: Input::new(&sized.heights, around),
        }
    }

    /// The slices to lend: record, widths, heights.
    pub(crate) fn slices(&self) -> (&[u8], &[u16], &[u16]) {
        (
            self.record.slice(),
            self.widths.slice(),
            self.heights.slice(),
        )
    }

    /// Stops unless all is as it was.
    pub(crate) fn expect_still(&self, sized: &SizedRecord) {
        self.record.expect_still(&sized.record);
        self.widths.expect_still(&sized.widths);
        self.heights.expect_still(&sized.heights);
    }
}

/// The two input slices of a placing, with their surroundings.
pub(crate) struct LentPlacing {
    x: Input<u32>,
    y: Input<u32>,
}

impl LentPlacing {
    /// The buffers before a call.
    pub(crate) fn new(placing: &Placing, around: Surroundings) -> Self {
        Self {
            x: Input::new(&placing.x, around),
            y: Input::new(&placing.y, around),
        }
    }

    /// The slices to lend.
    pub(crate) fn slices(&self) -> (&[u32], &[u32]) {
        (self.x.slice(), self.y.slice())
    }

    /// Stops unless all is as it was.
    pub(crate) fn expect_still(&self, placing: &Placing) {
        self.x.expect_still(&placing.x);
        self.y.expect_still(&placing.y);
    }
}

/// A record with sizes as it is printed: the record in hexadecimal, the sizes
/// as numbers.
pub(crate) struct Shown<'a>(pub(crate) &'a SizedRecord);

impl fmt::Display for Shown<'_> {
    fn fmt(&self, f: &mut fmt::Formatter<'_>) -> fmt::Result {
        let SizedRecord {
            record,
            widths,
            heights,
        } = self.0;
        write!(f, "record [{}], ", shown(record))?;
        write!(f, "widths {widths:?}, heights {heights:?}")
    }
}
