//! "Tree", from the root down: by recursion on shorter and shorter intervals of
//! labels, in the form that the sheet names.
//!
//! A block is a rectangle of the plan. Its rooms have positions one after
//! another, and labels one after another. Lines from side to side part it into
//! blocks with fewer labels, which are cut the other way, and so on down to
//! single rooms.
//!
//! No line has to be searched for. Between two positions one after another
//! there is one segment of the drawing, which is vertical if the label rises
//! and else horizontal; so each of the lines 1 to n − 1 has one. Both ends of a
//! line lie on lines of the other direction, or on the outline, which is 0 and
//! n. The two walks that read the labels come across them: the line starts
//! where the room after it does, and ends where the room before it does.
//!
//! The lines that cut a block are those that start on the one side of it and
//! end on the other. All lines that start on a line are kept as bits, and so
//! are all that end on one. So the lines of a block are what two sets have in
//! common, and a deep comb is not searched again at every level.
//!
//! No such line is outside of the block. Of the two sides, one at least is a
//! line of the block round it, from side to side of that one, and so of this
//! block too: it does not go on beyond it. Nor is it in doubt what direction
//! the lines have, since only the outline has the same numbers both ways, and
//! there are not both kinds of lines from side to side of a plan.

use super::steps::{read, Steps, NO_STEPS};
use super::walks::{walk, walk_back, NOTHING_SEEN};
use crate::{Cut, Refusal};
use std::hint::select_unpredictable;

/// Tree, with the answers of [`crate::tree`].
///
/// # Errors
///
/// As there.
// Not inlined, so that a benchmark pays for a call as with a library.
#[inline(never)]
pub fn tree_by_intervals(record: &[u8], tree: &mut [u8]) -> Result<usize, Refusal> {
    let mut steps = NO_STEPS;
    let n = read(record, &mut steps)?;
    // Small stores take less time to clear.
    if n < 64 {
        write::<64, 1, 256>(n, &steps, tree)
    } else {
        write::<256, 4, 1024>(n, &steps, tree)
    }
}

/// Writes the tree of so many rooms and these steps to the front of `tree`, with
/// stores of these sizes, and gives its length.
#[inline(always)]
fn write<const LINES: usize, const WORDS: usize, const BYTES: usize>(
    n: usize,
    steps: &Steps,
    tree: &mut [u8],
) -> Result<usize, Refusal> {
    let mut seen = NOTHING_SEEN;
    walk(n, steps, &mut seen)?;
    let mut writer = Writer::<LINES, WORDS, BYTES>::new();
    walk_back(n, steps, &seen, 0, |place, label, entered| {
        writer.labels[place % LINES] = label;
        let line = place + 1;
        if line < n {
            writer.add(line, [seen[line].newest(), entered]);
        }
    });
    let length = writer.whole(n as u8).ok_or(Refusal::NotSlicing)?;
    let front = tree.get_mut(..length).ok_or(Refusal::SliceShort)?;
    front.copy_from_slice(&writer.written[..length]);
    Ok(length)
}

/// Lines, one bit each.
type Set<const WORDS: usize> = [u64; WORDS];

/// A part of the plan with at least one room, in eight bytes so that it is
/// handed on in one word.
#[derive(Clone, Copy)]
struct Block {
    /// The lines by which it is cut, if at all.
    cut: Cut,
    /// The labels: the least one, and how many there are.
    low: u8,
    count: u8,
    /// Rooms at earlier positions.
    place: u8,
    /// The sides that its lines start from and end at.
    across: [u8; 2],
    /// The other two sides.
    along: [u8; 2],
}

impl Block {
    /// Takes away what comes before a line, and gives it.
    #[inline(always)]
    fn part_before(&mut self, line: u8) -> Self {
        let count = line - self.place;
        // Labels rise from left to right and fall from bottom to top.
        let beyond = self.count - count;
        let falls = self.cut == Cut::Horizontal;
        let low = self.low + select_unpredictable(falls, beyond, 0);
        let low_beyond = self.low + select_unpredictable(falls, 0, count);
        let part = Self {
            low,
            count,
            along: [self.along[0], line],
            ..*self
        };
        self.low = low_beyond;
        self.count = beyond;
        self.place = line;
        self.along[0] = line;
        part.cut_the_other_way()
    }

    /// The same block, for lines of the other direction.
    #[inline(always)]
    fn cut_the_other_way(self) -> Self {
        Self {
            cut: match self.cut {
                Cut::Vertical => Cut::Horizontal,
                Cut::Horizontal => Cut::Vertical,
            },
            across: self.along,
            along: self.across,
            ..self
        }
    }
}

/// What is known of a plan, and what is written of its tree.
struct Writer<const LINES: usize, const WORDS: usize, const BYTES: usize> {
    labels: [u8; LINES],
    /// By line, the lines that start from it.
    starting: [Set<WORDS>; LINES],
    /// By line, the lines that end at it.
    ending: [Set<WORDS>; LINES],
    /// All leaves at first, so that only nodes have to be written.
    written: [u8; BYTES],
}

impl<const LINES: usize, const WORDS: usize, const BYTES: usize> Writer<LINES, WORDS, BYTES> {
    #[inline(always)]
    fn new() -> Self {
        Self {
            labels: [0; LINES],
            starting: [[0; WORDS]; LINES],
            ending: [[0; WORDS]; LINES],
            written: [1; BYTES],
        }
    }

    /// Adds a line with its ends.
    #[inline(always)]
    fn add(&mut self, line: usize, ends: [u16; 2]) {
        let [start, end] = ends.map(|end| usize::from(end) % LINES);
        let (word, bit) = (line / 64 % WORDS, 1 << (line % 64));
        self.starting[start][word] |= bit;
        self.ending[end][word] |= bit;
    }

    /// Writes the tree of the plan and gives its length, unless it is not
    /// slicing.
    #[inline(always)]
    fn whole(&mut self, n: u8) -> Option<usize> {
        // The first room and the last one are in different parts.
        let last = usize::from(n - 1) % LINES;
        let rises = self.labels[0] < self.labels[last];
        let plan = Block {
            cut: if rises {
                Cut::Vertical
            } else {
                Cut::Horizontal
            },
            low: 1,
            count: n,
            place: 0,
            across: [0, n],
            along: [0, n],
        };
        self.block(plan, 0)
    }

    /// Writes the tree of a block from `at` on and gives where it ends, unless
    /// it is not slicing.
    fn block(&mut self, mut block: Block, mut at: usize) -> Option<usize> {
        // The last child of a node needs no call: what is left of the block is
        // cut in its turn.
        while block.count > 1 {
            let end = self.children(&mut block, at + 2)?;
            self.written[at % BYTES] = block.cut.kind();
            at = end;
            block = block.cut_the_other_way();
        }
        Some(self.leaf(block, at))
    }

    /// Where the tree of a single room ends that is written at `at`. It is
    /// there already. The interval has come down to the label of the room.
    #[inline(always)]
    fn leaf(&self, room: Block, at: usize) -> usize {
        debug_assert_eq!(self.labels[usize::from(room.place)], room.low);
        at + 1
    }

    /// Writes the trees of all children of a block but the last from `at` on,
    /// and before them how many children there are. Gives where they end and
    /// leaves the last child of the block, unless it is not slicing.
    #[inline(always)]
    fn children(&mut self, block: &mut Block, at: usize) -> Option<usize> {
        let [start, end] = block.across.map(|side| usize::from(side) % LINES);
        let first = usize::from(block.place);
        let last = first + usize::from(block.count) - 1;
        let (mut now, mut count) = (at, 1);
        for word in first / 64 % WORDS..last / 64 % WORDS + 1 {
            let lines = self.starting[start][word] & self.ending[end][word];
            (now, count) = self.parts(block, 64 * word as u8, lines, (now, count))?;
        }
        self.written[(at - 1) % BYTES] = count;
        (count > 1).then_some(now)
    }

    /// Writes the trees of the parts of a block that come before these lines,
    /// which are numbered from `first` on. Takes and gives where to write and
    /// the count of children, and leaves the rest of the block.
    #[inline(always)]
    fn parts(
        &mut self,
        block: &mut Block,
        first: u8,
        mut lines: u64,
        (mut at, mut count): (usize, u8),
    ) -> Option<(usize, u8)> {
        while lines != 0 {
            let line = first + lines.trailing_zeros() as u8;
            lines &= lines - 1;
            let part = block.part_before(line);
            at = if part.count > 1 {
                self.block(part, at)?
            } else {
                self.leaf(part, at)
            };
            count += 1;
        }
        Some((at, count))
    }
}

#[cfg(test)]
mod tests {
    use crate::fast::{tree_by_intervals, tree_checks};

    #[test]
    fn agrees_with_the_definitions_on_every_code_of_up_to_7_rooms() {
        tree_checks::every_code_of_up_to_7_rooms(tree_by_intervals);
    }

    #[test]
    fn agrees_with_the_definitions_on_every_record_of_up_to_2_bytes() {
        tree_checks::every_record_of_up_to_2_bytes(tree_by_intervals);
    }

    #[test]
    fn agrees_with_the_definitions_on_random_plans() {
        tree_checks::random_plans(tree_by_intervals);
    }

    #[test]
    fn agrees_with_the_definitions_on_rows_and_combs() {
        tree_checks::rows_and_combs(tree_by_intervals);
    }

    #[test]
    fn agrees_with_the_definitions_where_the_runs_are_most() {
        tree_checks::where_the_runs_are_most(tree_by_intervals);
    }
}
