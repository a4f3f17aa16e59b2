//! "Labels in".
//!
//! This is the sheet's walk, taken over the labels themselves in one pass. In
//! a Baxter list every new label falls into the gap next above or next below
//! the current run. A label that jumps over another run completes a barred
//! pattern with the two labels at that run's edge: the one inside stands
//! earlier, the one outside is still to come. A label that was seen before
//! lies in no gap either. So the pass needs the current run's edges and those
//! of the two runs next to it, and whatever does not fit is 7 or 8.
//!
//! Going down is going up with the labels counted from the other end, so one
//! piece of code serves both ways. It has no branch that depends on the
//! labels except to leave: in most lists no processor can guess the next turn.

use super::basics::{swap_if, BODY};
use crate::Refusal;
use std::hint::select_unpredictable;

/// Places for the runs beside the current one. 255 labels form at most 128
/// runs at a time, so one place is always free.
const PLACES: usize = 128;

/// One place back, in additions that wrap round.
const BACKWARD: usize = usize::MAX;

/// Labels in, with the answers of [`crate::labels_in`].
///
/// # Errors
///
/// As there.
// Not inlined, so that a benchmark pays for a call as with a library.
#[inline(never)]
pub fn labels_in(labels: &[u8], record: &mut [u8]) -> Result<usize, Refusal> {
    let mut body = [0; BODY];
    let takers = body
        .chunks_exact_mut(3)
        .map(|bytes| |triples: u32| bytes.copy_from_slice(&triples.to_be_bytes()[1..]));
    let kind = room_count(labels, takers)?;
    let length = 1 + (3 * labels.len() - 3).div_ceil(8);
    let front = record.get_mut(..length).ok_or(Refusal::SliceShort)?;
    front[0] = kind;
    front[1..].copy_from_slice(&body[..length - 1]);
    Ok(length)
}

/// The number of rooms of a label list, or the first of 1, 6, 7 and 8.
///
/// Of the triples each of `takers`, which are enough, gets eight, and the last
/// one those that are left and zeros, in 24 bits.
#[inline(always)]
pub(super) fn room_count<T>(labels: &[u8], takers: T) -> Result<u8, Refusal>
where
    T: Iterator<Item: FnOnce(u32)>,
{
    let kind = u8::try_from(labels.len()).map_err(|_| Refusal::ListLength)?;
    let (&first, rest) = labels.split_first().ok_or(Refusal::ListLength)?;
    if has_label_outside(kind, labels) {
        return Err(Refusal::LabelOutside);
    }
    if !fit_in_gaps(kind, first, rest, takers) {
        return Err(twice_or_barred(labels));
    }
    Ok(kind)
}

/// Whether some label is outside 1 to n; 0 less 1 wraps round to 255.
fn has_label_outside(n: u8, labels: &[u8]) -> bool {
    let greatest = labels
        .iter()
        .fold(0, |greatest: u8, label| greatest.max(label.wrapping_sub(1)));
    greatest >= n
}

/// Which of the two it is, for labels from 1 to n with one of the two causes.
#[cold]
fn twice_or_barred(labels: &[u8]) -> Refusal {
    let mut seen = [false; 256];
    for &label in labels {
        if std::mem::replace(&mut seen[usize::from(label)], true) {
            return Refusal::LabelTwice;
        }
    }
    Refusal::BarredPattern
}

/// One side of a run, in labels counted towards that side.
///
/// `edge` is the run's last label, `limit` the last label before the next run
/// there, or n + 1, which no label is, if there is no other run. Both lie in
/// one word, so that they are chosen and stored together.
#[derive(Clone, Copy)]
struct Side(u32);

impl Side {
    fn new(edge: u32, limit: u32) -> Self {
        Self(edge | limit << 16)
    }

    fn edge(self) -> u32 {
        self.0 & 0xffff
    }

    fn limit(self) -> u32 {
        self.0 >> 16
    }
}

/// Whether each of the labels in `rest` falls into one of the two gaps next to
/// the current run. Their triples go to `takers`.
#[inline(always)]
fn fit_in_gaps<T>(n: u8, first: u8, rest: &[u8], takers: T) -> bool
where
    T: Iterator<Item: FnOnce(u32)>,
{
    let from_other_end = |label: u32| u32::from(n) + 1 - label;
    let nowhere = u32::from(n) + 1;

    // The current run's sides, seen in the direction of the last step.
    let mut before = u32::from(first);
    let mut down = false;
    let mut ahead = Side::new(before, nowhere);
    let mut behind = Side::new(from_other_end(before), nowhere);

    // The far sides of the other runs: those below the current one fill the
    // store from its front, those above from its back, the nearest one last.
    // Each of the two ends is kept with the side that it belongs to.
    let mut others = [Side(0); PLACES];
    let mut end_ahead = PLACES - 1;
    let mut end_behind = 0;

    for (take, labels) in takers.zip(rest.chunks(8)) {
        let mut bits = 0;
        for &label in labels {
            let label = u32::from(label);
            let turns = (label < before) != down;
            down = label < before;
            before = label;
            swap_if(turns, &mut ahead, &mut behind);
            swap_if(turns, &mut end_ahead, &mut end_behind);

            let counted = select_unpredictable(down, from_other_end(label), label);
            if counted <= ahead.edge() || counted > ahead.limit() {
                return false;
            }
            let joins_current = counted == ahead.edge() + 1;
            let joins_next = counted == ahead.limit();
            let onward = select_unpredictable(down, BACKWARD, 1);

            // If the label is apart from the current run, that run stays
            // behind as the next one there.
            others[end_behind % PLACES] = behind;
            let apart = Side::new(from_other_end(counted), from_other_end(ahead.edge() + 1));
            behind = select_unpredictable(joins_current, behind, apart);
            end_behind = end_behind.wrapping_add(onward * usize::from(!joins_current));

            // If the label joins the next run ahead, that run's far side is
            // taken back out of the store.
            let far = others[end_ahead.wrapping_add(onward) % PLACES];
            let short_of_it = Side::new(counted, ahead.limit());
            ahead = select_unpredictable(joins_next, far, short_of_it);
            end_ahead = end_ahead.wrapping_add(onward * usize::from(joins_next));

            bits = bits << 3 | triple(down, joins_current, joins_next);
        }
        take(bits << (3 * (8 - labels.len())));
    }
    true
}

/// The triple of a label: going up, the run that it may join is below it and
/// the next one above it; going down the other way round.
fn triple(down: bool, joins_current: bool, joins_next: bool) -> u32 {
    let (current, next) = (u32::from(joins_current), u32::from(joins_next));
    select_unpredictable(down, current << 2 | next << 1 | 1, next << 2 | current << 1)
}

#[cfg(test)]
mod tests {
    use crate::cases::walk::Walked;
    use crate::cases::{each_permutation, every_list};
    use crate::{fast, labels_in};

    /// Compares the two versions on slices of every length that matters.
    fn compare(labels: &[u8]) {
        let needed = 1 + (3 * labels.len()).saturating_sub(3).div_ceil(8);
        for capacity in [0, needed - 1, needed, needed + 1] {
            let (mut expected, mut found) = (vec![0xa5; capacity], vec![0xa5; capacity]);
            let answers = (
                labels_in(labels, &mut expected),
                fast::labels_in(labels, &mut found),
            );
            assert_eq!(answers.0, answers.1, "{labels:?} into {capacity} bytes");
            assert_eq!(expected, found, "{labels:?} into {capacity} bytes");
        }
    }

    #[test]
    fn agrees_with_the_definitions_on_every_permutation_of_up_to_8() {
        for n in 1..=8 {
            each_permutation(n, compare);
        }
    }

    #[test]
    fn agrees_with_the_definitions_on_every_list_of_up_to_5_over_0_to_6() {
        for length in 0..=5 {
            every_list(6, length).for_each(|labels| compare(&labels));
        }
    }

    #[test]
    fn agrees_with_the_definitions_where_the_runs_are_most() {
        for Walked { mut labels, .. } in Walked::with_128_runs() {
            compare(&labels);
            labels.swap(3, 200);
            compare(&labels);
            labels[250] = labels[4];
            compare(&labels);
            labels[0] = 0;
            compare(&labels);
        }
    }
}
