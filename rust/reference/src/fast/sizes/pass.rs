//! The pass from the front.
//!
//! With every run go two numbers: how far across its rooms and those of all runs
//! below it reach, and how far up its rooms and those of all runs above it. For
//! the current run both hold. Every other run has those that held when it was
//! last current. Of a run below, the first one still holds, since nothing has
//! changed there since; of a run above, the second one does.
//!
//! A new label goes between two runs, the current one and the next one on its
//! side. The rooms left of the new one are those of the run below it and of all
//! runs further below. So it starts across at the first number of the run below,
//! and likewise upward at the second one of the run above, or at 0 if there is
//! none. Then its run is the current one. That reaches across as far as the new
//! room, or further if the label joins the run above: as far as that one did. It
//! reaches up as far as the new room, or as the run below if the label joins it.
//!
//! No branch depends on the steps: in most records no processor can guess the
//! next turn.

use crate::fast::book::WINDOW;
use crate::fast::steps::apart;
use std::hint::select_unpredictable;

/// What a step does, by the triple's number.
struct Effects {
    /// What it adds to the place of the next run below.
    low: [u32; 8],
    /// What it adds to that of the next run above.
    high: [u32; 8],
    /// All bits are 1 if the label joins the run above it, else all are 0.
    joins_above: [i64; 8],
    /// All bits are 1 if the label joins the run below it, else all are 0.
    joins_below: [i64; 8],
}

static EFFECTS: Effects = {
    let mut effects = Effects {
        low: [0; 8],
        high: [0; 8],
        joins_above: [0; 8],
        joins_below: [0; 8],
    };
    let mut triple = 0;
    while triple < 8 {
        let [first, second, third] = [triple >> 2, triple >> 1 & 1, triple & 1];
        effects.low[triple] = (1 - second as i32 - third as i32) as u32;
        effects.high[triple] = (first as i32 - third as i32) as u32;
        effects.joins_above[triple] = -(first as i64);
        effects.joins_below[triple] = -(second as i64);
        triple += 1;
    }
    effects
};

/// Takes the rooms of an accepted record in order of position. For each, `ends`
/// gets where it starts at the earliest, given where those before it ended, and
/// gives where it ends. The result is the furthest end each way.
#[inline(always)]
pub(super) fn furthest_ends<R>(
    window: &[u8; WINDOW],
    rooms: impl ExactSizeIterator<Item = R>,
    ends: impl FnMut(R, [i64; 2]) -> [i64; 2],
) -> [i64; 2] {
    // Small stores take less time to clear.
    if rooms.len() < 64 {
        go::<32, 64, R>(window, rooms, ends)
    } else {
        go::<128, 256, R>(window, rooms, ends)
    }
}

/// [`furthest_ends`], with stores for so many runs and so many triples.
#[inline(always)]
fn go<const RUNS: usize, const TRIPLES: usize, R>(
    window: &[u8; WINDOW],
    mut rooms: impl ExactSizeIterator<Item = R>,
    mut ends: impl FnMut(R, [i64; 2]) -> [i64; 2],
) -> [i64; 2] {
    let mut triples = [0; TRIPLES];
    read_triples(rooms.len() - 1, window, &mut triples);
    let mut pass = Pass::<RUNS>::new();
    if let Some(room) = rooms.next() {
        pass.current = ends(room, [0; 2]);
    }
    for (&triple, room) in triples.iter().zip(rooms) {
        pass.step(triple, |start| ends(room, start));
    }
    pass.current
}

/// Reads so many triples of a record, and some more.
#[inline(always)]
fn read_triples(count: usize, window: &[u8; WINDOW], triples: &mut [u8]) {
    let eights = triples.chunks_exact_mut(8).take(count.div_ceil(8));
    for (eight, start) in eights.zip((1..).step_by(3)) {
        let Some(&bytes) = window[start..].first_chunk() else {
            return;
        };
        eight.copy_from_slice(&apart(u32::from_be_bytes(bytes) >> 8).to_be_bytes());
    }
}

/// Where the pass is.
struct Pass<const RUNS: usize> {
    /// The two numbers of the current run, across and up.
    current: [i64; 2],
    /// The numbers of the other runs across, in a ring. Place 0 stands for no
    /// run. From there on are the runs below the current one, the next one last,
    /// and backward from there those above. 63 labels form at most 32 runs at a
    /// time and 255 at most 128, so there are places enough. If all are taken,
    /// every step that is left joins two runs.
    across: [i64; RUNS],
    /// Their numbers up. Side by side with the others, the compiler would take
    /// both together, and many processors cannot compare pairs of such numbers.
    up: [i64; RUNS],
    /// The place of the next run below.
    low: u32,
    /// The place of the next run above.
    high: u32,
}

impl<const RUNS: usize> Pass<RUNS> {
    #[inline(always)]
    fn new() -> Self {
        Self {
            current: [0; 2],
            across: [0; RUNS],
            up: [0; RUNS],
            low: 0,
            high: 0,
        }
    }

    /// Goes on to the next room: `ends` gets where it starts at the earliest.
    #[inline(always)]
    fn step(&mut self, triple: u8, ends: impl FnOnce([i64; 2]) -> [i64; 2]) {
        let triple = usize::from(triple % 8);
        let goes_up = triple & 1 == 0;
        let [across, up] = self.current;
        let [next_across, next_up] = self.exchange(goes_up);
        self.low = self.low.wrapping_add(EFFECTS.low[triple]);
        self.high = self.high.wrapping_add(EFFECTS.high[triple]);

        let choose = |one, other| select_unpredictable(goes_up, one, other);
        let [right, top] = ends([choose(across, next_across), choose(next_up, up)]);
        let above_across = choose(next_across, across) & EFFECTS.joins_above[triple];
        let below_up = choose(up, next_up) & EFFECTS.joins_below[triple];
        self.current = [right.max(above_across), top.max(below_up)];
    }

    /// Gives the numbers of the next run above or else below, and puts those of
    /// the current run where they may have to stay on the other side. If they
    /// need not, that place is free, or it is the one of the next run, which
    /// then joins.
    #[inline(always)]
    fn exchange(&mut self, goes_up: bool) -> [i64; 2] {
        let (on_low, on_high) = (self.low.wrapping_add(1), self.high.wrapping_sub(1));
        let ahead = select_unpredictable(goes_up, self.high, self.low) as usize % RUNS;
        let behind = select_unpredictable(goes_up, on_low, on_high) as usize % RUNS;
        let next = [self.across[ahead], self.up[ahead]];
        [self.across[behind], self.up[behind]] = self.current;
        next
    }
}
