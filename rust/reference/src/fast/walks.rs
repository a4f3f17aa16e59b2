//! The two walks over a record, first from the front and then from the back.
//!
//! From the front, the runs are known by their sizes and newest positions.
//! The runs on either side of the current one form a stack: the next one is
//! the one that was current last. So of all labels on that side the newest is
//! in the next run, which gives the left and the bottom of every room. The
//! size of the run that a label joins ahead is kept for the way back.
//!
//! From the back, there is one run, from 1 to n, and each step is undone. The
//! label of a step up is the top of the current run, less the size of what it
//! joined there. So the runs are known by their labels. With every gap
//! between them goes the first position that falls into it, and the gap next
//! to the current run is entered before those further on, which gives the
//! right and the top of every room.
//!
//! Going down is going up with below and above traded, so one piece of code
//! serves both ways. It has no branch that depends on the steps except to
//! leave: in most records no processor can guess the next turn.

use super::basics::swap_if;
use super::steps::Steps;
use crate::Refusal;
use std::hint::select_unpredictable;

/// A run in the walk from the front: its size and its newest position, in one
/// word so that they are stored together.
///
/// Of the next run ahead of a step this is what is kept, with the size 0 if
/// the label does not join it.
#[derive(Clone, Copy)]
pub(super) struct Seen(u16);

impl Seen {
    fn new(size: u16, newest: u16) -> Self {
        Self(size | newest << 8)
    }

    fn size(self) -> u16 {
        self.0 & 0xff
    }

    pub(super) fn newest(self) -> u16 {
        self.0 >> 8
    }

    fn without_size_unless(self, condition: bool) -> Self {
        Self(self.0 & select_unpredictable(condition, 0xffff, 0xff00))
    }
}

/// By place, what the step to it sees in the next run.
pub(super) type AllSeen = [Seen; 256];

/// Before the walk.
pub(super) const NOTHING_SEEN: AllSeen = [Seen(0); 256];

/// The walk from the front: keeps what each step sees, or gives one of 12 and
/// 13.
#[inline(always)]
pub(super) fn walk(n: usize, steps: &Steps, seen: &mut AllSeen) -> Result<(), Refusal> {
    // The runs beside the current one: those below it fill the store from its
    // front, those above from its back, the nearest one last. The outermost
    // places stand for no run. In the direction of the last step, the two ends
    // are the one ahead and the one behind.
    let mut others = NOTHING_SEEN;
    let mut ahead = 255usize;
    let mut behind = 0usize;
    let mut down = false;
    let mut size = 1;

    for (place, (step, next)) in (1..n).zip(steps[1..].iter().zip(&mut seen[1..])) {
        swap_if(step.goes_down() != down, &mut ahead, &mut behind);
        down = step.goes_down();

        *next = others[ahead % 256].without_size_unless(step.joins_next());
        others[behind.wrapping_add(step.onward()) % 256] = Seen::new(size, place as u16);
        size = select_unpredictable(step.joins_current(), size, 0) + 1 + next.size();

        behind = behind.wrapping_add(step.leaves());
        ahead = ahead.wrapping_add(step.takes());
        if ahead > 255 {
            return Err(Refusal::RunMissing);
        }
    }
    swap_if(down, &mut ahead, &mut behind);
    if (ahead, behind) != (255, 0) {
        return Err(Refusal::RunsLeft);
    }
    Ok(())
}

/// The walk from the back to the place `last`. At every place it calls `visit`
/// with the place, its label, and one less than the position that first enters
/// the gap on the side from which the next step turns away.
#[inline(always)]
pub(super) fn walk_back(
    n: usize,
    steps: &Steps,
    seen: &AllSeen,
    last: usize,
    mut visit: impl FnMut(usize, u8, u16),
) {
    // A side of a run is its last label there, and above that one less than
    // the position that first enters the gap beyond.
    let side = |edge: u32, entered: u32| edge & 0xff | entered << 8;
    let outline = n as u32;
    let mut side_ahead = side(outline, outline);
    let mut side_behind = side(1, outline);

    // As in the walk from the front; but 255 labels form at most 128 runs at a
    // time, so with 128 places one is always free. Of each run there is the
    // last label on the side of the current run, and above that the far side.
    let mut others = [0; 128];
    let mut ahead = 129usize;
    let mut behind = 0usize;
    let mut down = false;

    for place in (last..n).rev() {
        let step = steps[place];
        let entered = side_behind >> 8;
        swap_if(step.goes_down() != down, &mut side_ahead, &mut side_behind);
        swap_if(step.goes_down() != down, &mut ahead, &mut behind);
        down = step.goes_down();

        let onward = step.onward() as u32;
        let joined = u32::from(seen[place].size()).wrapping_mul(onward);
        let label = (side_ahead & 0xff).wrapping_sub(joined);
        visit(place, label as u8, entered as u16);

        let left_behind = others[behind % 128];
        let set_apart = label.wrapping_add(onward) & 0xff | side_ahead << 8;
        others[ahead.wrapping_sub(step.onward()) % 128] = set_apart;
        let joins = step.joins_current();
        let edge = select_unpredictable(joins, label.wrapping_sub(onward), left_behind);
        side_ahead = side(edge, place as u32);
        side_behind = select_unpredictable(joins, side_behind, left_behind >> 8);

        behind = behind.wrapping_sub(step.leaves());
        ahead = ahead.wrapping_sub(step.takes());
    }
}
