//! Where the triples of a record end, and where the record does.

/// The length of a record with this kind; for kind 0, which has none, any.
#[inline(always)]
pub(super) fn length(kind: u8) -> usize {
    // 3n − 3 bits rounded up to whole bytes, and the kind byte.
    (3 * usize::from(kind) + 12) / 8
}

/// The triple 010, which changes no count of runs, again and again.
const ON_TOP: u64 = 0x4924_9249_2492_4924;

/// What belongs to a record in a word that begins with the last of its triples,
/// the first one of these on top.
#[derive(Clone, Copy)]
pub(super) struct Form {
    triples: u64,
    /// What stands for the triples that the record does not have.
    filler: u64,
    spare: u64,
}

impl Form {
    /// The form of a word with so many triples, at most 15.
    pub(super) const fn of(triples: usize) -> Self {
        let bits = 3 * triples;
        let there = match bits {
            0 => 0,
            _ => u64::MAX << (64 - bits),
        };
        let whole_bytes = u64::MAX >> (bits.div_ceil(8) * 8);
        Self {
            triples: there,
            filler: ON_TOP & !there,
            spare: !there & !whole_bytes,
        }
    }

    /// A form whose triples are all 000, which leaves runs.
    pub(super) const BAD: Self = Self {
        triples: 0,
        filler: 0,
        spare: 0,
    };

    /// The triples of a word, and 010 after them.
    #[inline(always)]
    pub(super) fn triples(self, word: u64) -> u64 {
        word & self.triples | self.filler
    }

    /// The spare bits of a word that are 1.
    #[inline(always)]
    pub(super) fn spare(self, word: u64) -> u64 {
        word & self.spare
    }
}

/// The greatest kind whose triples, four at most, are taken all at once.
pub(super) const FEW: u8 = 5;

/// The forms of such records, by the kind. There is no record of kind 0.
pub(super) const OF_FEW: [Form; 8] = {
    let mut forms = [Form::BAD; 8];
    let mut kind = 1;
    while kind <= FEW as usize {
        forms[kind] = Form::of(kind - 1);
        kind += 1;
    }
    forms
};

/// By the number of triples that are left for the last word.
pub(super) const OF_LAST: [Form; 16] = {
    let mut forms = [Form::BAD; 16];
    let mut left = 0;
    while left < 16 {
        forms[left] = Form::of(left);
        left += 1;
    }
    forms
};
