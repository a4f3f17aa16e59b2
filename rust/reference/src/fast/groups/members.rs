//! The groups, as places in lists by position.

use crate::{Group, Side};

/// The rooms of a group: bit k of word w is the place 64w + k.
#[derive(Clone, Copy)]
pub(super) struct Members([u64; 4]);

impl Members {
    #[inline(always)]
    pub(super) fn of(group: &Group) -> Self {
        let word = |at: usize| {
            let bytes = group[8 * at..].first_chunk();
            u64::from_le_bytes(*bytes.expect("a whole word"))
        };
        Self([word(0), word(1), word(2), word(3)])
    }

    /// The first places, as bits.
    #[inline(always)]
    pub(super) fn few(&self) -> u32 {
        self.0[0] as u32
    }

    #[inline(always)]
    pub(super) fn is_empty(&self) -> bool {
        self.0 == [0; 4]
    }

    /// Whether there is a place in both.
    #[inline(always)]
    pub(super) fn meet(&self, other: &Self) -> bool {
        let [a, b, c, d] = self.0;
        let [e, f, g, h] = other.0;
        a & e | b & f | c & g | d & h != 0
    }

    /// Whether there is a place of `n`, which is at most 255, or beyond.
    #[inline(always)]
    pub(super) fn reach_beyond(&self, n: usize) -> bool {
        self.last().is_some_and(|last| last >= n)
    }

    #[inline(always)]
    fn first(&self) -> Option<usize> {
        let word = self.0.iter().position(|&word| word != 0)?;
        Some(64 * word + self.0[word].trailing_zeros() as usize)
    }

    #[inline(always)]
    fn last(&self) -> Option<usize> {
        let word = self.0.iter().rposition(|&word| word != 0)?;
        Some(64 * word + 63 - self.0[word].leading_zeros() as usize)
    }

    /// The last place before `end`, before which there is one.
    #[inline(always)]
    pub(super) fn last_before(&self, end: usize) -> usize {
        let last = end - 1;
        let mut word = last / 64;
        let mut bits = self.0[word % 4] & u64::MAX >> (63 - last % 64);
        while bits == 0 {
            word -= 1;
            bits = self.0[word % 4];
        }
        64 * word + 63 - bits.leading_zeros() as usize
    }

    /// The first place from `start` on, where there is one.
    #[inline(always)]
    pub(super) fn first_from(&self, start: usize) -> usize {
        let mut word = start / 64;
        let mut bits = self.0[word % 4] & u64::MAX << (start % 64);
        while bits == 0 {
            word += 1;
            bits = self.0[word % 4];
        }
        64 * word + bits.trailing_zeros() as usize
    }
}

/// Two groups of which one is wholly before the other one.
pub(super) struct Parted {
    pub(super) earlier: Members,
    pub(super) later: Members,
    /// The first and the last place of each.
    pub(super) of_earlier: [usize; 2],
    pub(super) of_later: [usize; 2],
    /// Whether the earlier group is the first one of the question.
    is_first_earlier: bool,
}

impl Parted {
    /// Two groups, if they are so and have no place of `n` or beyond.
    #[inline(always)]
    pub(super) fn of(first: Members, second: Members, n: usize) -> Option<Self> {
        let of_first = [first.first()?, first.last()?];
        let of_second = [second.first()?, second.last()?];
        let is_first_earlier = of_first[0] < of_second[0];
        let [(earlier, of_earlier), (later, of_later)] = match is_first_earlier {
            true => [(first, of_first), (second, of_second)],
            false => [(second, of_second), (first, of_first)],
        };
        let parted = of_earlier[1] < of_later[0] && of_later[1] < n;
        parted.then_some(Self {
            earlier,
            later,
            of_earlier,
            of_later,
            is_first_earlier,
        })
    }

    /// The side of the second group of the question on which the first one is.
    #[inline(always)]
    pub(super) fn side(&self, labels: Labels) -> Option<Side> {
        match (labels, self.is_first_earlier) {
            (Labels::Smaller, true) => Some(Side::Left),
            (Labels::Smaller, false) => Some(Side::Right),
            (Labels::Larger, true) => Some(Side::Below),
            (Labels::Larger, false) => Some(Side::Above),
            (Labels::Mixed, _) => None,
        }
    }
}

/// How the labels of the earlier group are to those of the later one.
#[derive(Clone, Copy)]
pub(super) enum Labels {
    /// All are smaller than all of those.
    Smaller,
    /// All are larger than all of those.
    Larger,
    /// Some are smaller and some larger than some of those.
    Mixed,
}
