//! The comparison of one case of "Tree".

use crate::given::GivenTree;
use crate::lent::shown;
use crate::one_slice::Versions;
use crate::outcome::{fitting, Answer};
use crate::tally::Tally;
use reference::Refusal;

impl Tally {
    /// Hands a record and a slice of `capacity` bytes to the library and to the
    /// fast Rust version, and gives the answer of the definitions, once both
    /// agree with it.
    ///
    /// # Panics
    ///
    /// If they differ in their answer or in any byte in or around the slices.
    pub fn tree(&mut self, given: &GivenTree, capacity: usize) -> Answer {
        let versions = Versions {
            expected: |_: &[u8], tree: &mut [u8]| given.and_then(|bytes| put(bytes, tree)),
            fast: reference::fast::tree,
            library: nenturxo::tree,
        };
        let (record, case) = (&given.input[..], format_args!("record {given}"));
        self.in_surroundings(|around| versions.agreed(record, capacity, around, case))
    }

    /// Compares a record whose tree has `length` bytes: it is accepted where
    /// the slice has so many at least, and else refused with 15.
    ///
    /// # Panics
    ///
    /// If the answer is another, or as [`Self::tree`].
    pub fn expect_tree_length(&mut self, given: &GivenTree, length: usize, capacity: usize) {
        let answer = self.tree(given, capacity);
        let expected = fitting(length, [length], [capacity]);
        assert_eq!(answer, expected, "{given} into {capacity} bytes");
    }

    /// Compares a record whose tree is known: in a slice of just its length,
    /// in a longer one, and refused in a shorter one.
    ///
    /// # Panics
    ///
    /// If the answer is another, or as [`Self::tree`].
    pub fn expect_tree(&mut self, record: &[u8], tree: &[u8]) {
        let given = GivenTree::new(record);
        // That the library wrote the same bytes is compared below.
        let bytes = given.answer.as_deref().map(shown);
        assert_eq!(bytes, Ok(shown(tree)), "tree of {given}");
        for capacity in [tree.len(), tree.len() + 3, tree.len() - 1] {
            self.expect_tree_length(&given, tree.len(), capacity);
        }
    }

    /// Compares a record that must be refused with `refusal`, whatever the
    /// slice: with none to write to, with a short one and with a long one.
    ///
    /// # Panics
    ///
    /// If the answer is another, or as [`Self::tree`].
    pub fn expect_refused_tree(&mut self, record: &[u8], refusal: Refusal) {
        let given = GivenTree::new(record);
        for capacity in [0, 3, nenturxo::TREE_CAPACITY + 1] {
            let answer = self.tree(&given, capacity);
            assert_eq!(answer, Err(refusal), "{given} into {capacity} bytes");
        }
    }
}

/// Puts the bytes of a tree at the front of a slice and gives their number.
fn put(bytes: &[u8], tree: &mut [u8]) -> Answer {
    let front = tree.get_mut(..bytes.len());
    front.ok_or(Refusal::SliceShort)?.copy_from_slice(bytes);
    Ok(bytes.len())
}

/// The tree that the library gives to a record.
///
/// # Errors
///
/// As [`nenturxo::tree`].
pub fn library_tree(record: &[u8]) -> Result<Vec<u8>, nenturxo::Refusal> {
    let mut tree = vec![0; nenturxo::TREE_CAPACITY];
    let length = nenturxo::tree(record, &mut tree)?;
    tree.truncate(length);
    Ok(tree)
}
