//! Why a record is not accepted.

use crate::Refusal;

/// Which of 9, 10, 14, 12 and 13 it is, for the record that begins with these
/// bytes and is not accepted. Bytes after its body do not count.
#[cold]
pub(in crate::fast) fn refusal_at_the_front(bytes: &[u8]) -> Refusal {
    let Some((&kind, rest)) = bytes.split_first().filter(|(&kind, _)| kind > 0) else {
        return Refusal::NoKind;
    };
    let bits = 3 * usize::from(kind) - 3;
    let length = bits.div_ceil(8);
    let Some(body) = rest.get(..length) else {
        return Refusal::BodyShort;
    };
    let spare = (1 << (8 * length - bits)) - 1;
    if body.last().is_some_and(|last| last & spare != 0) {
        return Refusal::SpareBit;
    }
    let bit = |at: usize| i32::from(body[at / 8] >> (7 - at % 8) & 1);
    let (mut p, mut q) = (0, 0);
    for at in (0..bits).step_by(3) {
        let [first, second, third] = [bit(at), bit(at + 1), bit(at + 2)];
        p += 1 - second - third;
        q += third - first;
        if p < 0 || q < 0 {
            return Refusal::RunMissing;
        }
    }
    Refusal::RunsLeft
}
