//! Slices that are lent to a call as the middle parts of larger buffers, so
//! that whatever a call does outside of them shows, and as whole buffers.

use crate::of_library;
use std::fmt;

/// What stands in and around the lent slices before a call.
#[derive(Clone, Copy)]
pub struct Surroundings {
    /// The value of every byte that is no input.
    fill: u8,
    /// How many entries stand before each slice, and again after it.
    margin: usize,
}

/// Each case is run in all of them. They have no byte in common, so nothing
/// that is written can hide behind a byte that was there before, and an answer
/// that heeds bytes around the slices shows. The slices are aligned
/// differently. In the last one nothing stands around: each slice is an
/// allocation of its own, so that a memory checker sees what is read or
/// written past its ends.
pub const SURROUNDINGS: [Surroundings; 3] = [
    Surroundings {
        fill: 0xa5,
        margin: 24,
    },
    Surroundings {
        fill: 0x5a,
        margin: 29,
    },
    Surroundings {
        fill: 0x3c,
        margin: 0,
    },
];

/// An entry of a lent slice.
pub trait Entry: Copy + Eq + fmt::Debug {
    /// The entry whose bytes are all `fill`.
    fn of_bytes(fill: u8) -> Self;

    /// The entry as it is printed: numbers in hexadecimal, as records are
    /// written in the sheet, and rooms as their corners and their names.
    fn shown(self) -> String;
}

impl Entry for u8 {
    fn of_bytes(fill: u8) -> Self {
        fill
    }

    fn shown(self) -> String {
        format!("{self:02X}")
    }
}

impl Entry for u16 {
    fn of_bytes(fill: u8) -> Self {
        Self::from_ne_bytes([fill; 2])
    }

    fn shown(self) -> String {
        format!("{self:04X}")
    }
}

impl Entry for u32 {
    fn of_bytes(fill: u8) -> Self {
        Self::from_ne_bytes([fill; 4])
    }

    fn shown(self) -> String {
        format!("{self:08X}")
    }
}

impl Entry for reference::Room {
    fn of_bytes(fill: u8) -> Self {
        let number = u16::of_bytes(fill);
        Self {
            name: number,
            ..Self::from([number; 4])
        }
    }

    fn shown(self) -> String {
        of_library::room(self).shown()
    }
}

impl Entry for nenturxo::Room {
    fn of_bytes(fill: u8) -> Self {
        of_library::room(Entry::of_bytes(fill))
    }

    fn shown(self) -> String {
        let Self {
            left,
            bottom,
            right,
            top,
            name,
        } = self;
        format!("({left},{bottom},{right},{top}; {name})")
    }
}

/// An input slice with its surroundings.
pub struct Input<T> {
    buffer: Vec<T>,
    around: Surroundings,
}

impl<T: Entry> Input<T> {
    /// The buffer before a call.
    pub fn new(entries: &[T], around: Surroundings) -> Self {
        let margin = vec![T::of_bytes(around.fill); around.margin];
        Self {
            buffer: [&margin, entries, &margin].concat(),
            around,
        }
    }

    /// The slice to lend.
    pub fn slice(&self) -> &[T] {
        let margin = self.around.margin;
        &self.buffer[margin..self.buffer.len() - margin]
    }

    /// The slice to lend to a call that may write there too.
    pub fn slice_mut(&mut self) -> &mut [T] {
        let margin = self.around.margin;
        let end = self.buffer.len() - margin;
        &mut self.buffer[margin..end]
    }

    /// Whether the slice is `entries` and all around it as it was.
    pub fn holds(&self, entries: &[T]) -> bool {
        self.buffer == Self::new(entries, self.around).buffer
    }

    /// Stops unless the slice is still `entries` and all around it as it was.
    pub fn expect_still(&self, entries: &[T]) {
        assert!(
            self.holds(entries),
            "a call wrote where its input stands: {entries:?}"
        );
    }
}

/// An output slice with its surroundings.
#[derive(Clone, PartialEq, Eq)]
pub struct Output<T> {
    buffer: Vec<T>,
    fill: T,
    margin: usize,
}

impl<T: Entry> Output<T> {
    /// The buffer before a call, for a slice of `capacity` entries.
    pub fn new(capacity: usize, around: Surroundings) -> Self {
        let fill = T::of_bytes(around.fill);
        Self {
            buffer: vec![fill; around.margin + capacity + around.margin],
            fill,
            margin: around.margin,
        }
    }

    /// The slice to lend.
    pub fn slice(&mut self) -> &mut [T] {
        let end = self.buffer.len() - self.margin;
        &mut self.buffer[self.margin..end]
    }

    /// Whether all entries but the first `written` ones of the slice, and all
    /// around it, are as they were.
    pub fn is_clean_after(&self, written: usize) -> bool {
        let (before, rest) = self.buffer.split_at(self.margin);
        let as_it_was = |entries: &[T]| entries.iter().all(|&entry| entry == self.fill);
        as_it_was(before) && rest.get(written..).is_some_and(as_it_was)
    }

    /// The same in another type.
    pub fn map<U>(self, other: impl Fn(T) -> U) -> Output<U> {
        Output {
            fill: other(self.fill),
            buffer: self.buffer.into_iter().map(other).collect(),
            margin: self.margin,
        }
    }
}

impl<T: Entry> fmt::Display for Output<T> {
    fn fmt(&self, f: &mut fmt::Formatter<'_>) -> fmt::Result {
        let (before, rest) = self.buffer.split_at(self.margin);
        let (slice, after) = rest.split_at(rest.len() - self.margin);
        write!(f, "[{}]", shown(slice))?;
        for (name, entries) in [("before", before), ("after", after)] {
            if entries.iter().any(|&entry| entry != self.fill) {
                write!(f, ", {name} it [{}]", shown(entries))?;
            }
        }
        Ok(())
    }
}

/// The entries as they are printed.
pub fn shown<T: Entry>(entries: &[T]) -> String {
    let entries: Vec<String> = entries.iter().map(|entry| entry.shown()).collect();
    entries.join(" ")
}
