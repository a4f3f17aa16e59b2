//! The first place at which a pattern begins.
//!
//! The labels are taken in order, from 1 on, and the place of each is marked.
//! Where a has a mark and a + 1 has none yet, go from left to right between
//! their places. That way crosses an odd number of borders between places with
//! and without a mark. If it crosses three or more, then behind the first end
//! comes a place that is marked like the last end, and behind that one a place
//! that is marked like the first end. The one without a mark has a label above
//! a + 1, the other one a label below a, and so the four are a pattern. If the
//! way crosses one border, no pattern has these two labels at its ends.
//!
//! Borders are bits. So it takes no branch to see whether there is more than
//! one on a way, however long it is: in most lists no processor can guess that.

use super::NOWHERE;

/// The first place at which a pattern begins, for `n` labels, at least 2, with
/// these places by label. So many words have a bit for each place.
#[inline(never)]
pub(super) fn first_place<const WORDS: usize, const SIZE: usize>(
    n: usize,
    places: &[u8; SIZE],
) -> Option<usize> {
    // By label, 255 if the way to it from the label before crosses one border,
    // and else 0. They are taken in twos, so there may be one too many.
    let mut plain = [0; SIZE];
    let mut borders = [0; WORDS];
    let bits_of = |place: u8| &Table::<WORDS, SIZE>::OF_PLACES[usize::from(place) % SIZE];
    let mut last = bits_of(places[1]);
    let twos = plain[2..].as_chunks_mut::<2>().0.iter_mut();
    for (plain, two) in twos.zip(places[2..].as_chunks::<2>().0).take(n / 2) {
        for (plain, &place) in plain.iter_mut().zip(two) {
            let next = bits_of(place);
            let crossed = crossed(&mut borders, last, next);
            last = next;
            *plain = 0u8.wrapping_sub(is_single(crossed).into());
        }
    }

    let mut first = NOWHERE;
    let ends = places[1..n].iter().zip(&places[2..=n]);
    for ((one, other), plain) in ends.zip(&plain[2..=n]) {
        first = first.min(one.min(other) | plain);
    }
    (first != NOWHERE).then_some(first.into())
}

/// Marks the place of `last`, and gives the borders on the way to `next`.
#[inline(always)]
fn crossed<const WORDS: usize>(
    borders: &mut [u64; WORDS],
    last: &Bits<WORDS>,
    next: &Bits<WORDS>,
) -> [u64; WORDS] {
    let mut crossed = [0; WORDS];
    for word in 0..WORDS {
        borders[word] ^= last.beside[word];
        crossed[word] = borders[word] & (last.before[word] ^ next.before[word]);
    }
    crossed
}

/// Whether one bit is 1 and no more, in at most four words of which an odd
/// number of bits is 1.
#[inline(always)]
fn is_single<const WORDS: usize>(bits: [u64; WORDS]) -> bool {
    // Two words over two others: of three bits two at most fall together.
    let mut two = [0; 2];
    for (word, bits) in bits.iter().enumerate() {
        two[word % 2] |= bits;
    }
    let [one, other] = two;
    let either = one | other;
    (one & other) | (either & either.wrapping_sub(1)) == 0
}

/// The bits that a place stands for. Each border has the bit of the place
/// before it.
#[derive(Clone, Copy)]
#[repr(align(16))]
struct Bits<const WORDS: usize> {
    /// The borders before the place.
    before: [u64; WORDS],
    /// The borders beside it.
    beside: [u64; WORDS],
}

/// The bits of all places.
struct Table<const WORDS: usize, const SIZE: usize>;

impl<const WORDS: usize, const SIZE: usize> Table<WORDS, SIZE> {
    const OF_PLACES: &'static [Bits<WORDS>; SIZE] = &Self::of_places();

    const fn of_places() -> [Bits<WORDS>; SIZE] {
        let none = Bits {
            before: [0; WORDS],
            beside: [0; WORDS],
        };
        let mut all = [none; SIZE];
        let mut place = 0;
        while place < SIZE {
            let (word, bit) = (place / 64, 1 << (place % 64));
            all[place].beside[word] |= bit;
            if place + 1 < SIZE {
                all[place + 1].before = all[place].before;
                all[place + 1].before[word] |= bit;
                all[place + 1].beside[word] |= bit;
            }
            place += 1;
        }
        all
    }
}
