//! "Tree", by one pass over the record from the back.
//!
//! Rooms left of others, or below them, have smaller positions. So the leaves
//! of a tree stand in order of position, and its bytes can be written from the
//! last one to the first: a room, and then before it the nodes that begin with
//! this room. No label has to be known.
//!
//! What the pass has met is made of parts: rooms with positions one after
//! another and labels one after another. The part with the newest room is in
//! hand. The others wait for rooms between them and the hand. By label, each of
//! them lies outside of all that was met after it, below or above. So they
//! stand in one stack, though they wait on two sides of the hand. Two rooms are
//! met first that no plan has: one with the label n + 1, and one with 0.
//!
//! The next room goes above the hand or below it: that is the third bit of the
//! triple one position on. The other two bits of its own triple say whether the
//! labels next to it are still to come; those that are not were met. So it is
//! known whether the room joins the hand, and whether it reaches the next part
//! on the side where it goes. There are three ways to go on:
//!
//! - The room is apart from the hand. Then the hand waits too, and the room is
//!   in hand.
//! - It joins the hand, and that is all.
//! - It joins the hand and reaches the part that waits last. Then that part
//!   joins as well, and after it those that the hand is beside by now.
//!
//! On the side where the last part does not wait, the hand may be beside
//! another one. If a room goes there nevertheless, it is beyond that one, and
//! the plan is not slicing: the other part, the last one, this room and one
//! that is to come between the hand and the last part are shaped like 2413 or
//! 3142, read from the back. Without such a room all parts of a plan join in
//! the end. Where a record is refused with 12 or 13 they do not: a tree comes
//! out only where each bit says what is so in its plan.

mod effects;
mod moves;
mod pass;
mod refusal;

use super::steps::body_of;
use crate::Refusal;
use moves::read_moves;
use pass::Pass;
use refusal::refusal;

/// Tree, with the answers of [`crate::tree`].
///
/// # Errors
///
/// As there.
// Not inlined, so that a benchmark pays for a call as with a library.
#[inline(never)]
pub fn tree(record: &[u8], tree: &mut [u8]) -> Result<usize, Refusal> {
    let (n, body) = body_of(record)?;
    // Small stores take less time to clear.
    if n < 64 {
        write::<66, 264>(n, body, tree)
    } else {
        write::<258, 1032>(n, body, tree)
    }
}

/// Writes the tree of a record with so many rooms and this body to the front of
/// `tree`, with stores of these sizes, and gives its length.
#[inline(always)]
fn write<const PARTS: usize, const BYTES: usize>(
    n: usize,
    body: &[u8],
    tree: &mut [u8],
) -> Result<usize, Refusal> {
    let mut moves = [0; PARTS];
    read_moves(n, body, &mut moves);
    let mut pass = Pass::<PARTS, BYTES>::new();
    let Some(bytes) = pass.tree(&moves[..=n]) else {
        return Err(refusal(n, body));
    };
    let front = tree.get_mut(..bytes.len()).ok_or(Refusal::SliceShort)?;
    front.copy_from_slice(bytes);
    Ok(bytes.len())
}

#[cfg(test)]
mod tests {
    use crate::fast::{tree, tree_checks};

    #[test]
    fn agrees_with_the_definitions_on_every_code_of_up_to_7_rooms() {
        tree_checks::every_code_of_up_to_7_rooms(tree);
    }

    #[test]
    fn agrees_with_the_definitions_on_every_record_of_up_to_2_bytes() {
        tree_checks::every_record_of_up_to_2_bytes(tree);
    }

    #[test]
    fn agrees_with_the_definitions_on_random_plans() {
        tree_checks::random_plans(tree);
    }

    #[test]
    fn agrees_with_the_definitions_on_rows_and_combs() {
        tree_checks::rows_and_combs(tree);
    }

    #[test]
    fn agrees_with_the_definitions_where_the_runs_are_most() {
        tree_checks::where_the_runs_are_most(tree);
    }
}
