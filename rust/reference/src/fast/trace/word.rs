//! The moves of a trace, as they stand in its bytes.
//!
//! No byte of an accepted trace is above 7, and of the three kinds only kind 1,
//! which has a body, lacks the bit worth 2. So this bit alone tells how far it is
//! from one move to the next.

/// The code of a move: its kind in the three low bits, and above them its
/// triple. Where it has no triple these bits are any.
pub(super) type Code = u8;

/// The code of a move of an unknown kind.
const UNKNOWN: Code = 0;

/// How many moves were made, and how many bytes they have.
pub(super) struct Made {
    pub(super) moves: usize,
    pub(super) bytes: usize,
}

/// The move that begins at a place of a trace, and how many bytes it has. If it
/// lacks its body, or has a triple above 7, its code is that of an unknown kind.
#[inline(always)]
pub(super) fn move_at(trace: &[u8], place: usize) -> (Code, usize) {
    match trace.get(place..) {
        Some(&[1, triple @ 0..=7, ..]) => (1 | triple << 3, 2),
        Some(&[kind @ 2..=3, ..]) => (kind, 1),
        _ => (UNKNOWN, 1),
    }
}

/// Eight bytes of a trace that begin with a move, the first one at the low end.
#[derive(Clone, Copy)]
pub(super) struct Word(u64);

/// The bytes of the kinds if there are four moves with bodies.
const KINDS: u64 = 0x00ff_00ff_00ff_00ff;

/// These bytes if all four add a room.
const ADDS: u64 = 0x0001_0001_0001_0001;

/// The bit worth 2 of every byte.
const TWOS: u64 = 0x0202_0202_0202_0202;

/// The bits of every byte that make it more than 7.
const ABOVE_7: u64 = 0xf8f8_f8f8_f8f8_f8f8;

/// By the bits worth 2 of the first seven bytes, where the second, the third and
/// the fourth move begin, and where the next one does after them: each in bits,
/// in a byte of its own from the low end.
static PLACES: [u32; 128] = {
    let mut all = [0; 128];
    let mut bits = 0;
    while bits < 128 {
        let (mut place, mut moves) = (0, 0);
        while moves < 4 {
            place += if bits >> place & 1 == 0 { 2 } else { 1 };
            all[bits] |= (8 * place) << (8 * moves);
            moves += 1;
        }
        bits += 1;
    }
    all
};

impl Word {
    /// The word that begins at a place of a trace, unless the trace ends before.
    #[inline(always)]
    pub(super) fn at(trace: &[u8], place: usize) -> Option<Self> {
        let bytes = trace.get(place..place + 8)?;
        bytes.try_into().ok().map(u64::from_le_bytes).map(Self)
    }

    /// Whether there is a byte that no accepted trace has.
    #[inline(always)]
    pub(super) fn has_a_byte_above_7(self) -> bool {
        self.0 & ABOVE_7 != 0
    }

    /// Whether there are four moves that add rooms, and nothing else.
    #[inline(always)]
    pub(super) fn is_four_adds(self) -> bool {
        self.0 & KINDS == ADDS
    }

    /// Whether there are eight moves that have no body, and nothing else.
    #[inline(always)]
    pub(super) fn is_eight_moves(self) -> bool {
        self.0 & TWOS == TWOS
    }

    /// The code of the move that begins after so many bytes.
    #[inline(always)]
    pub(super) fn code_after(self, bytes: usize) -> Code {
        (self.codes() >> (8 * bytes)) as u8
    }

    /// The codes of the first four moves, and how many bytes these have.
    #[inline(always)]
    pub(super) fn four(self) -> ([Code; 4], usize) {
        // The product has the bits worth 2 of the first seven bytes on top.
        let gathered = (self.0 & TWOS).wrapping_mul(0x0102_0408_1020_4080) >> 57;
        let places = PLACES[gathered as usize];
        let code = |place: u32| self.codes().wrapping_shr(place) as u8;
        let four = [0, places, places >> 8, places >> 16].map(code);
        (four, (places >> 27) as usize)
    }

    /// In every byte the code of the move that begins there, if one does.
    #[inline(always)]
    fn codes(self) -> u64 {
        self.0 | self.0 >> 5
    }
}
