//! "The record" of the sheet.

use crate::{Refusal, Triple};

/// The number of bits of a record with kind `kind`, which is at least 1, and
/// the length of its body: 3n − 3 bits rounded up to whole bytes.
fn body_size(kind: u8) -> (usize, usize) {
    let bits = 3 * usize::from(kind) - 3;
    (bits, bits.div_ceil(8))
}

/// The record with kind `kind` and the given triples: one kind byte, which is
/// n, then the bits of the triples in whole bytes.
///
/// The first bit of the first triple is the highest bit of the first body
/// byte. Spare bits at the low end of the last byte are 0.
#[must_use]
pub fn record_of(kind: u8, triples: &[Triple]) -> Vec<u8> {
    let bits = triples.concat();
    let body = bits.chunks(8).map(byte_from_the_top);
    std::iter::once(kind).chain(body).collect()
}

/// The triples that stand in a record.
///
/// # Errors
///
/// The first cause found in the order 9, 10, 11, 14.
pub fn triples_in(record: &[u8]) -> Result<Vec<Triple>, Refusal> {
    let (&kind, body) = record.split_first().ok_or(Refusal::NoKind)?;
    if kind == 0 {
        return Err(Refusal::NoKind);
    }
    let (bits, length) = body_size(kind);
    if body.len() < length {
        return Err(Refusal::BodyShort);
    }
    if body.len() > length {
        return Err(Refusal::BytesAfter);
    }
    let all_bits: Vec<bool> = body.iter().copied().flat_map(bits_from_the_top).collect();
    let (code, spare) = all_bits.split_at(bits);
    if spare.contains(&true) {
        return Err(Refusal::SpareBit);
    }
    Ok(code
        .chunks(3)
        .map(|bits| [bits[0], bits[1], bits[2]])
        .collect())
}

/// The record that begins with the first of these bytes: as many of them as its
/// kind fixes, or all if there are fewer. Kind 0 fixes no body.
pub(crate) fn record_at_the_front(bytes: &[u8]) -> &[u8] {
    let length = match bytes.first() {
        None | Some(0) => 1,
        Some(&kind) => 1 + body_size(kind).1,
    };
    bytes.get(..length).unwrap_or(bytes)
}

/// What each bit of a byte is worth, the highest first.
const WORTH: [u8; 8] = [128, 64, 32, 16, 8, 4, 2, 1];

/// The byte whose highest bits are `bits`, in order, and whose other bits are 0.
fn byte_from_the_top(bits: &[bool]) -> u8 {
    bits.iter()
        .zip(WORTH)
        .map(|(&bit, worth)| if bit { worth } else { 0 })
        .sum()
}

/// The bits of a byte, the highest first.
fn bits_from_the_top(byte: u8) -> [bool; 8] {
    WORTH.map(|worth| byte & worth != 0)
}

#[cfg(test)]
mod tests {
    use super::{record_at_the_front, record_of, triples_in};
    use crate::{Refusal, Triple};

    #[test]
    fn body_length_is_3n_minus_3_bits_rounded_up() {
        for n in 1..=255u8 {
            let triples = vec![[true; 3]; usize::from(n) - 1];
            let bits = 3 * usize::from(n) - 3;
            assert_eq!(record_of(n, &triples).len(), 1 + bits.div_ceil(8));
        }
    }

    #[test]
    fn spare_bits_are_0() {
        assert_eq!(record_of(2, &[[true; 3]]), [2, 0b1110_0000]);
        assert_eq!(record_of(4, &[[true; 3]; 3]), [4, 0xff, 0b1000_0000]);
    }

    #[test]
    fn triples_come_back_out_of_their_record() {
        for n in 1..=255u8 {
            for seed in 0..8 {
                let bit = |place: usize| place * (seed + 2) * 7 % 11 < 5;
                let triples: Vec<Triple> = (0..usize::from(n) - 1)
                    .map(|at| [bit(3 * at), bit(3 * at + 1), bit(3 * at + 2)])
                    .collect();
                assert_eq!(triples_in(&record_of(n, &triples)), Ok(triples));
            }
        }
    }

    #[test]
    fn a_record_ends_where_its_kind_says_or_with_the_bytes() {
        for n in 1..=255u8 {
            let triples = vec![[true; 3]; usize::from(n) - 1];
            let record = record_of(n, &triples);
            assert_eq!(record_at_the_front(&record), record);
            let more = [&record[..], &[n, 0]].concat();
            assert_eq!(record_at_the_front(&more), record);
            let fewer = &record[..record.len().div_ceil(2)];
            assert_eq!(record_at_the_front(fewer), fewer);
        }
        assert_eq!(record_at_the_front(&[0, 1, 1]), [0]);
        assert_eq!(record_at_the_front(&[]), []);
    }

    #[test]
    fn records_of_another_form_are_refused() {
        let refusal = |record: &[u8]| triples_in(record).unwrap_err();
        assert_eq!(refusal(&[]), Refusal::NoKind);
        assert_eq!(refusal(&[0]), Refusal::NoKind);
        assert_eq!(refusal(&[0, 0]), Refusal::NoKind);
        assert_eq!(refusal(&[2]), Refusal::BodyShort);
        assert_eq!(refusal(&[4, 0xff]), Refusal::BodyShort);
        assert_eq!(refusal(&[1, 0]), Refusal::BytesAfter);
        assert_eq!(refusal(&[2, 0xff, 0]), Refusal::BytesAfter);
        assert_eq!(refusal(&[2, 0b0001_0000]), Refusal::SpareBit);
        assert_eq!(refusal(&[4, 0, 1]), Refusal::SpareBit);
    }
}
