//! The numbers of a text, 64 bytes at a time.
//!
//! Of each block there are three masks, with a bit for each byte: where the
//! digits are, the spaces and the commas. With them the form is checked for
//! all bytes at once, and every bit where a digit follows none is a number. A
//! number is read out of the four bytes from there on, whatever its length:
//! where many hands have typed, no processor can guess what comes next.

use crate::Refusal;
use std::hint::select_unpredictable;

/// The length of the longest text.
const LONGEST: usize = 4096;

/// Bytes that are looked at together, as many as a mask has bits.
const BLOCK: usize = 64;

/// A block, and what a number that begins in it may have of the next one.
type Window = [u8; BLOCK + 4];

/// Places for the labels of a list that is not refused with 1.
pub(super) type Places = [u8; 255];

/// The numbers of a text as labels, or one of 18 and 1. A number above 255 is
/// 0 here, which is no label either.
#[inline(always)]
pub(super) fn labels_of<'a>(text: &[u8], places: &'a mut Places) -> Result<&'a [u8], Refusal> {
    if text.len() > LONGEST {
        return Err(Refusal::TextForm);
    }
    let mut rest = text.strip_suffix(b"\n").unwrap_or(text);
    let mut scan = Scan::start();
    while let Some(window) = rest.first_chunk() {
        scan.block(window, places);
        rest = &rest[BLOCK..];
    }
    // At the end spaces are no harm.
    while !rest.is_empty() {
        let mut window = [b' '; BLOCK + 4];
        window[..rest.len()].copy_from_slice(rest);
        scan.block(&window, places);
        rest = rest.get(BLOCK..).unwrap_or(&[]);
    }
    let count = scan.finish()?;
    places.get(..count).ok_or(Refusal::ListLength)
}

/// What the bytes so far leave for those to come.
struct Scan {
    /// Not 0 if they break the form.
    broken: u64,
    /// 1 if after spaces there must be a number, as at the start and after a
    /// comma.
    awaited: u64,
    /// Where the digits of the last block are.
    digits: u64,
    /// How many numbers there are.
    count: usize,
}

impl Scan {
    fn start() -> Self {
        Self {
            broken: 0,
            awaited: 1,
            digits: 0,
            count: 0,
        }
    }

    /// The count of the numbers of the whole text, at least 1, or one of 18
    /// and 1.
    fn finish(&self) -> Result<usize, Refusal> {
        let lacks_number = self.awaited != 0 && self.count > 0;
        if self.broken != 0 || lacks_number {
            return Err(Refusal::TextForm);
        }
        if self.count == 0 {
            return Err(Refusal::ListLength);
        }
        Ok(self.count)
    }

    /// Takes in a block, and puts its numbers into their places, if there are
    /// places enough.
    #[inline(always)]
    fn block(&mut self, window: &Window, places: &mut Places) {
        let starts = self.starts(window);
        let count = starts.count_ones() as usize;
        if let Some(places) = places.get_mut(self.count..self.count + count) {
            put_labels(window, starts, places);
        }
        self.count += count;
    }

    /// Checks the form of a block, and gives the bits where numbers begin.
    #[inline(always)]
    fn starts(&mut self, window: &Window) -> u64 {
        let digits = mask(window, |byte| byte.wrapping_sub(b'0') < 10);
        let spaces = mask(window, |byte| byte == b' ');
        let commas = mask(window, |byte| byte == b',');
        self.broken |= !(digits | spaces | commas);

        // Where the byte so many places before is a digit.
        let last = self.digits;
        let after = |places: u32| digits << places | last >> (64 - places);
        self.broken |= digits & after(1) & after(2) & after(3);
        let starts = digits & !after(1);
        self.digits = digits;

        // Where spaces begin after a comma, adding 1 to them carries on to the
        // first byte after them.
        let next = commas << 1 | self.awaited;
        let (carried, beyond) = spaces.overflowing_add(next & spaces);
        self.broken |= (carried | next) & !spaces & commas;
        self.awaited = u64::from(beyond) | commas >> 63;
        starts
    }
}

/// A bit for each byte of the block, the lowest for the first one.
#[inline(always)]
fn mask(window: &Window, is: impl Fn(u8) -> bool) -> u64 {
    let mut flags = [0; BLOCK];
    for (flag, &byte) in flags.iter_mut().zip(window) {
        *flag = u8::from(is(byte));
    }
    // Multiplied so, the flags of eight bytes come together in the highest.
    let mut mask = 0;
    for (at, eight) in flags.as_chunks().0.iter().enumerate() {
        let bits = u64::from_le_bytes(*eight).wrapping_mul(0x0102_0408_1020_4080) >> 56;
        mask |= bits << (8 * at);
    }
    mask
}

/// Puts the numbers that begin at these bits into as many places.
#[inline(always)]
fn put_labels(window: &Window, mut starts: u64, places: &mut [u8]) {
    for place in places {
        let at = starts.trailing_zeros() as usize % BLOCK;
        starts &= starts.wrapping_sub(1);
        let four = [window[at], window[at + 1], window[at + 2], window[at + 3]];
        *place = label(four);
    }
}

/// The number with which four bytes begin, if it is at most 255, and else 0.
/// It has one to three digits, and after it stands another byte of the form.
#[inline(always)]
fn label(four: [u8; 4]) -> u8 {
    // Digits become 0 to 9, the other bytes of the form have bit 4.
    let bytes = u32::from_le_bytes(four) ^ 0x3030_3030;
    let bits = (bytes & 0x1010_1010).trailing_zeros() & 0x18;
    // The last digit moves to the highest byte, and no other byte is left
    // with the digits; there the product has ones, tens and hundreds together.
    let digits = bytes.wrapping_shl(32 - bits);
    let value = (digits.wrapping_mul(0x0064_0a01) >> 24) as u8;
    select_unpredictable(digits.swap_bytes() > 0x0002_0505, 0, value)
}
