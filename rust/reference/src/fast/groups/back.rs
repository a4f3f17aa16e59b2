//! The way back.
//!
//! Where the label of a later room comes, it goes into a gap between two runs. Of
//! the labels that are there, those above the gap are larger and those below are
//! smaller. On the way back from there each room is in the run that is current at
//! its place. So it is enough to know where that run is above the gap and where
//! below.
//!
//! As long as it is below, nothing changes above the gap. So it is below exactly
//! as long as there are no fewer runs above it than above the gap. At the first
//! place with fewer, the step from there goes down over the gap: the current run
//! is the next one above it, and the runs below the gap are all those below that
//! run. From there on the same holds the other way round.
//!
//! Of the later rooms only the one counts whose label is the nearest to those of
//! the earlier group. It is found on the same way: if the earlier labels shall be
//! smaller, a later room below the gap has a label that is nearer, and from there
//! on its own gap counts.

use super::counts::{Counts, Eight};
use super::members::{Labels, Parted};

/// A gap between labels, and where on the way back it is seen from.
#[derive(Clone, Copy)]
struct Gap {
    /// Whether the current run is above it, and not below.
    is_above: bool,
    /// How many runs are on the other side of it.
    runs: u64,
    /// The places before this are to come.
    end: usize,
}

/// The way back, and the eight places where it is.
pub(super) struct Back<'a, const EIGHTS: usize> {
    counts: &'a Counts<'a, EIGHTS>,
    parted: &'a Parted,
    eight: Eight,
}

impl<'a, const EIGHTS: usize> Back<'a, EIGHTS> {
    #[inline(always)]
    pub(super) fn new(counts: &'a Counts<'a, EIGHTS>, parted: &'a Parted) -> Self {
        Self {
            counts,
            parted,
            eight: counts.eight((parted.of_later[0] - 1) / 8),
        }
    }

    /// The labels of the two groups.
    #[inline(always)]
    pub(super) fn go(&mut self) -> Labels {
        let [first, last] = self.parted.of_later;
        let gap = self.at_the_nearest(first);
        // If all are on one side, it is that of the nearest two.
        let are_all = match first == last {
            true => self.are_earlier(gap, gap.is_above),
            false => self.are_all(gap.is_above),
        };
        match (are_all, gap.is_above) {
            (true, false) => Labels::Smaller,
            (true, true) => Labels::Larger,
            (false, _) => Labels::Mixed,
        }
    }

    /// The gap of the first later room, seen from the last earlier one.
    #[inline(always)]
    fn at_the_nearest(&mut self, first: usize) -> Gap {
        let nearest = self.parted.of_earlier[1];
        let mut gap = self.gap_of(first);
        while let Some(crossed) = self.crossed(gap, nearest) {
            gap = crossed;
        }
        gap.end = nearest + 1;
        gap
    }

    /// Whether all earlier rooms are above all later ones, or else below.
    #[inline(always)]
    fn are_all(&mut self, above: bool) -> bool {
        let [first, last] = self.parted.of_later;
        let nearest = self.parted.of_earlier[1];
        let mut gap = self.gap_of_furthest(last, above);
        while gap.end > first {
            if gap.is_above == above {
                let start = self.parted.later.last_before(gap.end);
                gap = match self.crossed(gap, start) {
                    Some(crossed) => crossed,
                    None => self.gap_of_furthest(start, above),
                };
            } else {
                match self.crossed(gap, nearest) {
                    Some(crossed) => gap = crossed,
                    None => return false,
                }
            }
        }
        self.are_earlier(gap, above)
    }

    /// Whether all earlier rooms are above a gap, or else below.
    #[inline(always)]
    fn are_earlier(&mut self, mut gap: Gap, above: bool) -> bool {
        let first = self.parted.of_earlier[0];
        loop {
            if gap.is_above != above {
                let start = self.parted.earlier.last_before(gap.end);
                match self.crossed(gap, start) {
                    Some(crossed) => gap = crossed,
                    None => return false,
                }
            }
            match self.crossed(gap, first) {
                Some(crossed) => gap = crossed,
                None => return true,
            }
        }
    }

    /// Of the later rooms from which the labels rise to this one, in at most eight
    /// steps, the gap of the first one: its label is the smallest. Where the
    /// earlier rooms shall be above, the labels fall.
    #[inline(always)]
    fn gap_of_furthest(&mut self, later: usize, above: bool) -> Gap {
        self.go_to((later - 1) / 8);
        let start = self.eight.start_of_run(above, later - 1);
        self.gap_of(self.parted.later.first_from(start))
    }

    /// The gap of the room at a place, which is not the first one.
    #[inline(always)]
    fn gap_of(&mut self, place: usize) -> Gap {
        let before = place - 1;
        self.go_to(before / 8);
        let is_above = self.eight.goes_down(before);
        Gap {
            is_above,
            runs: self.eight.runs(!is_above, before),
            end: place,
        }
    }

    /// The same gap from where the current run is on its other side, if that is
    /// so at a place from `start` on.
    #[inline(always)]
    fn crossed(&mut self, gap: Gap, start: usize) -> Option<Gap> {
        let mut last = gap.end - 1;
        self.go_to(last / 8);
        let place = loop {
            let found = self.eight.last_with_fewer(!gap.is_above, gap.runs, last);
            if let Some(place) = found {
                break place;
            }
            last = (8 * self.eight.index()).checked_sub(1)?;
            if last < start {
                return None;
            }
            self.go_to(last / 8);
        };
        (place >= start).then(|| Gap {
            is_above: !gap.is_above,
            runs: self.eight.runs(gap.is_above, place),
            end: place + 1,
        })
    }

    #[inline(always)]
    fn go_to(&mut self, index: usize) {
        if index != self.eight.index() {
            self.eight = self.counts.eight(index);
        }
    }
}
