//! What the record says of the next room.

use super::super::steps::apart;

/// A move, from the part in hand to the next room: the bits below.
pub(super) type Move = u8;

/// The room goes above the hand, else below it.
pub(super) const UP: Move = 1;

/// The room joins the hand and reaches the next part on the side where it goes.
pub(super) const JOINS_BOTH: Move = 4;

/// The next move goes the other way than this one.
pub(super) const TURNS: Move = 32;

/// The room reaches the next part on the side where it goes.
pub(super) const REACHES: Move = 64;

/// The room is apart from the hand.
pub(super) const APART: Move = 128;

/// The bits that decide on the effect of a move, together with the state.
pub(super) const INDEXED: Move = TURNS | REACHES | APART;

/// The lowest bit of each byte.
const ONES: u64 = 0x0101_0101_0101_0101;

/// The length of the longest record.
const RECORD: usize = 97;

/// Reads the moves to the rooms, by position. Before them is a move that goes
/// down, and behind them there are some more.
#[inline(always)]
pub(super) fn read_moves(n: usize, body: &[u8], moves: &mut [Move]) {
    // Position 1 has no triple. In the place of the kind there are bits 0 for
    // it, since all other labels were met. The third bit behind the body says
    // that the first move goes up: it comes from the label 0.
    let mut padded = [0; RECORD];
    padded[1..][..body.len()].copy_from_slice(body);
    let up = 3 * n + 7;
    padded[up / 8 % RECORD] |= 0x80 >> (up % 8);

    let eights = moves[1..].chunks_exact_mut(8).take(n.div_ceil(8));
    for (eight, start) in eights.zip((0..).step_by(3)) {
        let Some(&bytes) = padded[start..].first_chunk() else {
            return;
        };
        eight.copy_from_slice(&eight_moves(u32::from_be_bytes(bytes)));
    }
}

/// The moves of eight triples, which stand before the lowest three bits. The
/// lowest bit is the third one of the next triple.
fn eight_moves(bits: u32) -> [Move; 8] {
    let triples = apart(bits >> 3 & 0x00ff_ffff);
    let up = (triples << 8 | u64::from(bits & 1)) & ONES;
    let turns = (triples ^ up) & ONES;
    // Going up, the second bit of a triple tells of the hand and the first one
    // of the next part; going down it is the other way round. A bit of 1 says
    // that the label is still to come.
    let differ = (triples >> 1 ^ triples >> 2) & up;
    let to_come = triples ^ differ << 1 ^ differ << 2;
    let [hand, next] = [to_come >> 2, to_come >> 1].map(|bits| bits & ONES);
    let reaches = next ^ ONES;
    let joins_both = reaches & !hand;

    let put = |bits: u64, bit: Move| bits * u64::from(bit);
    let moves = put(up, UP)
        | put(joins_both, JOINS_BOTH)
        | put(turns, TURNS)
        | put(reaches, REACHES)
        | put(hand, APART);
    moves.to_be_bytes()
}
