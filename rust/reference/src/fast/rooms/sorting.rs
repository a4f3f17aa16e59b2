//! The level edges of the rooms in order.

use crate::Room;

/// A level edge: its row, its left and its right end, then its room, by the
/// room's place in the list. They are in one word, so that edges compare by
/// rows and then from left to right.
#[derive(Clone, Copy)]
pub(super) struct Edge(u64);

impl Edge {
    /// After all others, and of no room.
    pub(super) const NONE: Self = Self(u64::MAX);

    pub(super) fn new(row: u16, left: u16, right: u16, room: u8) -> Self {
        let ends = u64::from(left) << 32 | u64::from(right) << 16;
        Self(u64::from(row) << 48 | ends | u64::from(room))
    }

    /// Where it begins: the row, then the place in it.
    pub(super) fn start(self) -> u32 {
        (self.0 >> 32) as u32
    }

    /// Where it ends.
    pub(super) fn end(self) -> u32 {
        (self.0 >> 32) as u32 & 0xffff_0000 | (self.0 >> 16) as u32 & 0xffff
    }

    pub(super) fn room(self) -> u8 {
        self.0 as u8
    }
}

/// From so many rooms on, counting bytes beats comparing all with all.
const MANY: usize = 64;

/// Writes the bottoms of the rooms and their tops, each in order. Gives `None`
/// for some lists in which two of these begin at the same point, which no
/// floorplan is.
pub(super) fn sort(rooms: &[Room], bottoms: &mut [Edge], tops: &mut [Edge]) -> Option<()> {
    if rooms.len() < MANY {
        compare(rooms, bottoms, |room| room.bottom)?;
        compare(rooms, tops, |room| room.top)?;
    } else {
        count(rooms, bottoms, tops);
    }
    Some(())
}

/// Writes one edge of each room by the number of those before it.
fn compare(rooms: &[Room], edges: &mut [Edge], row: impl Fn(&Room) -> u16) -> Option<()> {
    let mut starts = [[i32::MAX; 8]; MANY / 8];
    for (start, room) in starts.as_flattened_mut().iter_mut().zip(rooms) {
        let number = u32::from(row(room)) << 16 | u32::from(room.left);
        *start = (number ^ 1 << 31) as i32;
    }
    let eights = &starts[..rooms.len().div_ceil(8)];
    let mut sum = 0;
    for (place, (room, &start)) in rooms.iter().zip(starts.as_flattened()).enumerate() {
        let mut before = [0; 8];
        for eight in eights {
            for (before, other) in before.iter_mut().zip(eight) {
                *before += i32::from(*other < start);
            }
        }
        let before = before.iter().sum::<i32>() as usize;
        edges[before] = Edge::new(row(room), room.left, room.right, place as u8);
        sum += before;
    }
    // Where two are equal a place is left free, and the sum is less.
    (sum == rooms.len() * (rooms.len() - 1) / 2).then_some(())
}

/// How often each byte is the low byte, and the high byte, of a number.
type Counts = [[u8; 256]; 2];

/// Writes both edges of each room, in an order by counted bytes: first from
/// left to right, and from there by rows.
fn count(rooms: &[Room], bottoms: &mut [Edge], tops: &mut [Edge]) {
    let mut counts: [Counts; 3] = [[[0; 256]; 2]; 3];
    for room in rooms {
        for (counts, number) in counts.iter_mut().zip([room.left, room.bottom, room.top]) {
            let [low, high] = number.to_le_bytes();
            counts[0][usize::from(low)] += 1;
            counts[1][usize::from(high)] += 1;
        }
    }
    let [left, bottom, top] = counts;
    let any: [u8; 256] = std::array::from_fn(|place| place as u8);
    let mut by_left = [0; 256];
    order(
        rooms,
        &any,
        left,
        |room| room.left,
        |at, place| by_left[at] = place,
    );
    order_edges(rooms, &by_left, bottom, |room| room.bottom, bottoms);
    order_edges(rooms, &by_left, top, |room| room.top, tops);
}

/// Writes one edge of each room by rows, those of one row in the order that
/// there is.
#[inline(always)]
fn order_edges(
    rooms: &[Room],
    before: &[u8; 256],
    counts: Counts,
    row: impl Fn(&Room) -> u16,
    edges: &mut [Edge],
) {
    order(rooms, before, counts, &row, |at, place| {
        let room = &rooms[usize::from(place)];
        edges[at] = Edge::new(row(room), room.left, room.right, place);
    });
}

/// Puts the rooms in the order of a number, those with equal ones in the order
/// that there is.
#[inline(always)]
fn order(
    rooms: &[Room],
    before: &[u8; 256],
    [mut low, mut high]: Counts,
    number: impl Fn(&Room) -> u16,
    mut put: impl FnMut(usize, u8),
) {
    let bytes = |place: u8| number(&rooms[usize::from(place)]).to_le_bytes();
    let mut by_low = [0; 256];
    add_up(&mut low);
    for &place in &before[..rooms.len()] {
        let at = &mut low[usize::from(bytes(place)[0])];
        by_low[usize::from(*at)] = place;
        *at = at.wrapping_add(1);
    }
    add_up(&mut high);
    for &place in &by_low[..rooms.len()] {
        let at = &mut high[usize::from(bytes(place)[1])];
        put(usize::from(*at), place);
        *at = at.wrapping_add(1);
    }
}

/// Puts in the place of each count the sum of those before it, eight at a
/// time. All together are at most 255.
fn add_up(counts: &mut [u8; 256]) {
    const ONES: u64 = u64::from_ne_bytes([1; 8]);
    let mut before = 0;
    for eight in counts.as_chunks_mut::<8>().0 {
        let sums = u64::from_le_bytes(*eight).wrapping_mul(ONES);
        *eight = (sums << 8).wrapping_add(before * ONES).to_le_bytes();
        before = (before + (sums >> 56)) & 0xff;
    }
}
