//! The pass from the back.

use super::effects::{
    when_it_waits, State, BESIDE, EFFECTS, KEEPS_NODE, KEEPS_WAITING, LINKED, NOTHING, RARE,
    TOWARD, TURNED,
};
use super::moves::{Move, APART, INDEXED, UP};
use std::hint::select_unpredictable;

/// A node: its kind in the lowest byte, and above it how many children it has.
/// It is written in this order, the lowest byte first.
type Node = u32;

/// One child.
const CHILD: Node = 0x100;

/// A room that is the only one in hand, as if the move to the next room had
/// begun its node.
fn alone(next: u32) -> Node {
    CHILD | 2 | next & u32::from(UP)
}

/// A part that waits.
#[derive(Clone, Copy)]
struct Part {
    /// Its node, with what is to join it as one child.
    node: u16,
    /// The state in which it began to wait.
    state: u16,
}

/// The stores of the pass: for so many parts, a power of 2 and 2 more, and for
/// so many bytes of the tree, a power of 2 and [`SPARE`] more.
pub(super) struct Pass<const PARTS: usize, const BYTES: usize> {
    /// The parts that wait, each one place on. Two that stand one after the
    /// other are wanted together, so node and state lie side by side.
    waiting: [Part; PARTS],
    /// The tree, from the back.
    written: [u8; BYTES],
}

/// Bytes of the store behind the tree.
const SPARE: usize = 8;

/// As many bytes as a move writes at once: two nodes and a room.
const AT_ONCE: usize = 5;

/// Where the pass is.
struct Point {
    /// The place of the part that waits last.
    last: u8,
    /// The state.
    state: u32,
    /// The node in hand.
    hand: Node,
    /// Where the next bytes of the tree go.
    at: usize,
}

impl<const PARTS: usize, const BYTES: usize> Pass<PARTS, BYTES> {
    /// The end of the tree.
    const END: usize = BYTES - SPARE;

    /// The start: the room with the label n + 1 waits at place 1.
    #[inline(always)]
    pub(super) fn new() -> Self {
        let none = Part { node: 0, state: 0 };
        let mut waiting = [none; PARTS];
        waiting[2].node = 0x0202;
        waiting[1].state = u16::from(NOTHING) << 2;
        let written = [0; BYTES];
        Self { waiting, written }
    }

    /// The bytes of the tree, if all parts join. Of the moves, which are at
    /// least two, the last one is made first; the first one is none.
    #[inline(always)]
    pub(super) fn tree(&mut self, moves: &[Move]) -> Option<&[u8]> {
        // The room with the label 0 is in hand. It is the last child of a node
        // cut by horizontal lines, in which it does not count. The state lets
        // no room go below it.
        let mut point = Point {
            last: 1,
            state: u32::from(TOWARD | BESIDE),
            hand: 3,
            at: Self::END - AT_ONCE,
        };
        let (&first, others) = moves.split_last()?;
        let mut now = u32::from(first);
        for &next in others.iter().rev() {
            let next = u32::from(next);
            self.step(&mut point, now, next)?;
            now = next;
        }
        if point.last != 0 {
            return None;
        }
        let start = (point.at + AT_ONCE) % Self::END;
        let bytes = &self.written[start..Self::END];
        // Where the plan is cut by vertical lines, or not at all, that node has
        // it as the only child.
        Some(bytes.strip_prefix(&[3, 1]).unwrap_or(bytes))
    }

    /// Makes a move, of which the next one is known, unless the plan is not
    /// slicing.
    #[inline(always)]
    fn step(&mut self, point: &mut Point, now: u32, next: u32) -> Option<()> {
        let index = (point.state | now & u32::from(INDEXED)) as usize % 256;
        let effect = &EFFECTS[index];
        let last = usize::from(point.last) % (PARTS - 2);
        let waited = u32::from(self.waiting[last + 1].node);
        let node = point.hand + CHILD;

        // All that may have to be written or to wait. Whatever does not count
        // is written over later.
        let at = point.at % Self::END;
        self.written[at..at + 4].copy_from_slice(&(node << 16 | waited).to_le_bytes());
        self.written[at + 4] = 1;
        self.waiting[last + 2] = Part {
            node: node as u16,
            state: point.state as u16,
        };
        if effect.kept & RARE != 0 {
            return self.join_more(point, now, next);
        }

        point.at = point.at.wrapping_sub(usize::from(effect.bytes));
        let waits_longer = u32::from(self.waiting[last].state) >> 2;
        // All bits are 1 if the part that waits last joins, else all are 0.
        let joins_last = (point.state & now) << TOWARD.leading_zeros() << 24;
        let joins_last = (joins_last as i32 >> 31) as u32;
        let pushed = now >> APART.trailing_zeros();
        point.last = point.last.wrapping_add(pushed as u8);
        point.last = point.last.wrapping_add(joins_last as u8);
        point.state = u32::from(effect.then) | waits_longer & joins_last;
        let other = select_unpredictable(effect.kept & KEEPS_WAITING != 0, waited, alone(next));
        point.hand = select_unpredictable(effect.kept & KEEPS_NODE != 0, node, other);
        Some(())
    }

    /// Makes a move with which the hand joins more than one part, unless the
    /// plan is not slicing. Its room is written already.
    #[inline(always)]
    fn join_more(&mut self, point: &mut Point, now: u32, next: u32) -> Option<()> {
        let mut state = point.state as State;
        if state & (NOTHING | TOWARD) != TOWARD {
            return None;
        }
        point.at = point.at.wrapping_sub(1);
        let mut node = point.hand + CHILD;
        let mut up = now;
        let goes_on = |state: State| state & (TURNED | BESIDE) == TURNED | BESIDE;
        loop {
            self.put(point, node);
            let last = usize::from(point.last) % (PARTS - 2);
            node = u32::from(self.waiting[last + 1].node);
            point.last = point.last.wrapping_sub(1);
            up ^= u32::from(UP);

            let turned = state & TURNED != 0;
            let linked = (state & LINKED) << 2;
            let beside = select_unpredictable(turned, linked, state & BESIDE);
            let done = !goes_on(state);
            state = when_it_waits(self.waiting[last].state as State) | beside;
            if done {
                let is_below = up ^ u32::from(turned);
                let toward = (is_below ^ next) & u32::from(UP) != 0;
                point.state = u32::from(state | if toward { TOWARD } else { 0 });
                break;
            }
        }
        if (up ^ next) & u32::from(UP) == 0 {
            point.hand = node;
        } else {
            self.put(point, node);
            point.hand = alone(next);
        }
        Some(())
    }

    /// Writes a node that is complete.
    #[inline(always)]
    fn put(&mut self, point: &mut Point, node: Node) {
        let at = point.at.wrapping_add(AT_ONCE - 2) % Self::END;
        self.written[at..at + 2].copy_from_slice(&(node as u16).to_le_bytes());
        point.at = point.at.wrapping_sub(2);
    }
}
