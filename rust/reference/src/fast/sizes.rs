//! "Lowest corners", "Slack" and "Placing in", by one pass over the record.
//!
//! No label has to be known, and no pair of rooms is looked at. In the sheet's
//! walk a new label goes above the current run or below it. If it goes above,
//! the rooms left of the new one are those of the current run and of all runs
//! below it, and the rooms below the new one are those of all runs above. So it
//! is enough to know how far each of these two groups reaches; see [`pass`].

mod pass;

use super::book::{accepted, padded};
use crate::Refusal;
use pass::furthest_ends;

/// Lowest corners, with the answers of [`crate::lowest_corners`].
///
/// # Errors
///
/// As there.
// Not inlined, so that a benchmark pays for a call as with a library.
#[inline(never)]
pub fn lowest_corners(
    record: &[u8],
    widths: &[u16],
    heights: &[u16],
    x: &mut [u32],
    y: &mut [u32],
) -> Result<usize, Refusal> {
    let window = padded(record);
    let n = accepted(record, &window)?;
    check_sizes(n, widths, heights)?;
    let x = x.get_mut(..n).ok_or(Refusal::SliceShort)?;
    let y = y.get_mut(..n).ok_or(Refusal::SliceShort)?;
    let rooms = widths.iter().zip(heights).zip(x.iter_mut().zip(y));
    furthest_ends(&window, rooms, |(sizes, (x, y)), start| {
        [*x, *y] = start.map(|start| start as u32);
        ends(start, sizes)
    });
    Ok(n)
}

/// Slack, with the answers of [`crate::slack`].
///
/// # Errors
///
/// As there.
#[inline(never)]
pub fn slack(
    record: &[u8],
    widths: &[u16],
    heights: &[u16],
    outline_width: u32,
    outline_height: u32,
) -> Result<(i64, i64), Refusal> {
    let window = padded(record);
    let n = accepted(record, &window)?;
    check_sizes(n, widths, heights)?;
    let rooms = widths.iter().zip(heights);
    let [right, top] = furthest_ends(&window, rooms, |sizes, start| ends(start, sizes));
    Ok((
        i64::from(outline_width) - right,
        i64::from(outline_height) - top,
    ))
}

/// Placing in, with the answers of [`crate::placing_in`].
///
/// # Errors
///
/// As there.
#[inline(never)]
pub fn placing_in(
    record: &[u8],
    widths: &[u16],
    heights: &[u16],
    x: &[u32],
    y: &[u32],
) -> Result<(), Refusal> {
    let window = padded(record);
    let n = accepted(record, &window)?;
    if x.len() != n || y.len() != n {
        return Err(Refusal::LengthDiffers);
    }
    check_sizes(n, widths, heights)?;
    // Below 0 as soon as a room starts before all of those end that are left of
    // it or below it. From there on the ends may be wrong, which changes nothing.
    let mut least = 0;
    let rooms = widths.iter().zip(heights).zip(x.iter().zip(y));
    furthest_ends(&window, rooms, |(sizes, (&x, &y)), [across, up]| {
        let placed = [x, y].map(i64::from);
        least |= (placed[0] - across) | (placed[1] - up);
        ends(placed, sizes)
    });
    if least < 0 {
        return Err(Refusal::RelationBroken);
    }
    Ok(())
}

/// Where a room with this width and height ends both ways.
#[inline(always)]
fn ends(start: [i64; 2], (&width, &height): (&u16, &u16)) -> [i64; 2] {
    [start[0] + i64::from(width), start[1] + i64::from(height)]
}

/// 24 unless both lists have `n` entries, or else 25 if one of them is 0.
#[inline(always)]
fn check_sizes(n: usize, widths: &[u16], heights: &[u16]) -> Result<(), Refusal> {
    if widths.len() != n || heights.len() != n {
        return Err(Refusal::LengthDiffers);
    }
    // Without an early end, so that several are compared at a time.
    let sizes = widths.iter().zip(heights);
    let zero = sizes.fold(false, |zero, (&width, &height)| {
        zero | (width == 0) | (height == 0)
    });
    if zero {
        return Err(Refusal::ZeroSize);
    }
    Ok(())
}

#[cfg(test)]
mod tests;
