//! Inputs that cases are made of.

use crate::lent::shown;
use crate::records::record_length;
use reference::cases::unwritten;
use reference::{
    numbering_of, plan_of, tree_of, Numbered, Numbering, Plan, Questions, Refusal, Room,
};
use std::fmt;

/// An input and its answer in slices that are long enough, found once for all
/// cases of that input.
#[derive(Clone, Debug)]
pub struct Given<T, A> {
    /// The bytes of a record, or the rooms of a list.
    pub input: Vec<T>,
    /// What it is answered with, or why it is refused.
    pub answer: Result<A, Refusal>,
}

/// A record, and the plan that it stands for.
pub type GivenRecord = Given<u8, Plan>;

/// A record, and what questions about it are answered from. That takes longer
/// to find than the plan alone.
pub type AskedRecord = Given<u8, Questions>;

/// A record, and the bytes of its plan's cutting tree.
pub type GivenTree = Given<u8, Vec<u8>>;

/// A room list, and its record, labels, positions and names.
pub type GivenRooms = Given<Room, Numbering>;

impl<T, A> Given<T, A> {
    /// The input whose answer `find` gives.
    fn answered(input: impl Into<Vec<T>>, find: impl FnOnce(&[T]) -> Result<A, Refusal>) -> Self {
        let input = input.into();
        let answer = find(&input);
        Self { input, answer }
    }

    /// What follows from the answer, or the refusal.
    ///
    /// # Errors
    ///
    /// As the answer, or as `follow`.
    pub fn and_then<B>(&self, follow: impl FnOnce(&A) -> Result<B, Refusal>) -> Result<B, Refusal> {
        match &self.answer {
            Ok(answer) => follow(answer),
            Err(refusal) => Err(*refusal),
        }
    }
}

impl GivenRecord {
    /// The record with these bytes, answered by the definitions.
    #[must_use]
    pub fn new(record: impl Into<Vec<u8>>) -> Self {
        Self::answered(record, plan_of)
    }
}

impl AskedRecord {
    /// The record with these bytes, answered by the definitions.
    #[must_use]
    pub fn new(record: impl Into<Vec<u8>>) -> Self {
        Self::answered(record, |record| plan_of(record).map(Questions::about))
    }
}

impl GivenTree {
    /// The record with these bytes, answered by the definitions.
    #[must_use]
    pub fn new(record: impl Into<Vec<u8>>) -> Self {
        Self::answered(record, |record| tree_of(record).map(|tree| tree.bytes()))
    }

    /// The record with these bytes, answered by the fast Rust version. For
    /// large plans the definitions take long.
    #[must_use]
    pub fn quick(record: impl Into<Vec<u8>>) -> Self {
        Self::answered(record, |record| {
            let mut tree = vec![0; nenturxo::TREE_CAPACITY];
            let length = reference::fast::tree(record, &mut tree)?;
            tree.truncate(length);
            Ok(tree)
        })
    }
}

impl GivenRooms {
    /// The list of these rooms, answered by the definitions.
    #[must_use]
    pub fn new(rooms: impl Into<Vec<Room>>) -> Self {
        Self::answered(rooms, numbering_of)
    }

    /// The list of these rooms, answered by the fast Rust version. For long
    /// lists the definitions take long.
    #[must_use]
    pub fn quick(rooms: impl Into<Vec<Room>>) -> Self {
        Self::answered(rooms, |rooms| {
            written(rooms.len(), |slices| {
                reference::fast::rooms_in(rooms, slices)
            })
        })
    }

    /// The list of these rooms, whose answer is known from the way in which it
    /// was made.
    #[must_use]
    pub fn known(rooms: Vec<Room>, answer: Result<Numbering, Refusal>) -> Self {
        Self::answered(rooms, |_| answer)
    }

    /// The least lengths of the output slices, if the list is accepted.
    #[must_use]
    pub fn needed(&self) -> [usize; 4] {
        let n = self.input.len();
        [record_length(n), n, n, n]
    }
}

/// What a call of "Rooms in" writes for `n` rooms to slices that are long
/// enough.
pub(crate) fn written<R>(
    n: usize,
    call: impl FnOnce(Numbered<'_>) -> Result<usize, R>,
) -> Result<Numbering, R> {
    let mut numbering = unwritten([nenturxo::RECORD_CAPACITY, n, n, n]);
    let length = call(numbering.slices())?;
    numbering.record.truncate(length);
    Ok(numbering)
}

impl<A> fmt::Display for Given<u8, A> {
    fn fmt(&self, f: &mut fmt::Formatter<'_>) -> fmt::Result {
        f.write_str(&shown(&self.input))
    }
}

impl fmt::Display for GivenRooms {
    fn fmt(&self, f: &mut fmt::Formatter<'_>) -> fmt::Result {
        write!(f, "{} rooms {}", self.input.len(), shown(&self.input))
    }
}
