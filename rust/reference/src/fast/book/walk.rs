//! The walk over one record, whatever way its steps are taken.

use super::forms::{FEW, OF_FEW, OF_LAST};

/// The bytes that the walk reads: the kind, the longest body, and as many more
/// as make every word whole.
pub(in crate::fast) const WINDOW: usize = 104;

/// A way to take the steps of a record, which begins before the first one.
pub(in crate::fast) trait Walk: Default {
    /// Sixteen steps, whose triples are on top of a word.
    fn go(&mut self, word: u64);

    /// At least so many steps, fewer than sixteen. After the triples for them
    /// the word has 010, which changes nothing.
    fn go_last(&mut self, word: u64, steps: usize);

    /// What the steps came to.
    fn end(self) -> End;

    /// What four steps come to that are a whole record. Their triples are on top
    /// of a word.
    fn end_of_four(word: u64) -> End;
}

/// What the steps of a record come to.
pub(in crate::fast) struct End {
    /// 0 if no run was missing and one is left.
    pub(in crate::fast) bad: u32,
    /// How many third bits were 1, if that is so.
    pub(in crate::fast) falls: u32,
}

/// The number of third bits that are 1 in the record with this kind at the front
/// of a window, if it is accepted. Whether all of its bytes belong to the book
/// is not looked at.
#[inline(always)]
pub(super) fn falls<W: Walk>(kind: u8, window: &[u8; WINDOW]) -> Option<u32> {
    let (end, spare) = if kind <= FEW {
        few::<W>(kind, window)
    } else {
        many::<W>(kind, window)
    };
    (u64::from(end.bad) | spare == 0).then_some(end.falls)
}

/// What the steps come to and the spare bits that are 1, for a kind of at most
/// [`FEW`].
#[inline(always)]
fn few<W: Walk>(kind: u8, window: &[u8; WINDOW]) -> (End, u64) {
    let form = OF_FEW[usize::from(kind % 8)];
    let body = u64::from(u32::from_be_bytes([
        window[0], window[1], window[2], window[3],
    ])) << 40;
    (W::end_of_four(form.triples(body)), form.spare(body))
}

/// As [`few`], for a greater kind.
#[inline(always)]
fn many<W: Walk>(kind: u8, window: &[u8; WINDOW]) -> (End, u64) {
    let mut walk = W::default();
    let triples = usize::from(kind.wrapping_sub(1));
    let (sixteens, left) = (triples / 16, triples % 16);
    for index in 0..sixteens {
        walk.go(word(window, index));
    }
    let last = word(window, sixteens);
    let form = OF_LAST[left];
    walk.go_last(form.triples(last), left);
    (walk.end(), form.spare(last))
}

/// The word with the last triples of the record with this kind at the front of a
/// window, fewer than sixteen, and 010 after them.
#[inline(always)]
pub(in crate::fast) fn last_word(kind: u8, window: &[u8; WINDOW]) -> u64 {
    let triples = usize::from(kind.wrapping_sub(1));
    OF_LAST[triples % 16].triples(word(window, triples / 16))
}

/// The word that begins after so many times sixteen triples of a body.
#[inline(always)]
pub(in crate::fast) fn word(window: &[u8; WINDOW], sixteens: usize) -> u64 {
    let from = 1 + 6 * sixteens;
    let bytes = window[from..from + 8].try_into();
    u64::from_be_bytes(bytes.expect("8 bytes"))
}
