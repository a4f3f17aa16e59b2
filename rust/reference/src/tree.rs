//! The call "Tree" of M-103.

use crate::plan::front;
use crate::{cutting_tree, plan_of, CuttingTree, Refusal};

/// The cutting tree of the plan that a record stands for.
///
/// # Errors
///
/// The first cause found in the order 9, 10, 11, 14, 12, 13, 19.
pub fn tree_of(record: &[u8]) -> Result<CuttingTree, Refusal> {
    let plan = plan_of(record)?;
    cutting_tree(&plan.rooms).ok_or(Refusal::NotSlicing)
}

/// Tree: writes the cutting tree of the plan that a record stands for to the
/// front of `tree` and gives its length.
///
/// Bytes of `tree` after the cutting tree keep their values.
///
/// # Errors
///
/// The first cause found in the order 9, 10, 11, 14, 12, 13, 19, 15; `tree` is
/// then as it was.
pub fn tree(record: &[u8], tree: &mut [u8]) -> Result<usize, Refusal> {
    let bytes = tree_of(record)?.bytes();
    front(tree, bytes.len())?.copy_from_slice(&bytes);
    Ok(bytes.len())
}

#[cfg(test)]
mod tests {
    use super::tree;
    use crate::cases::slicing::WORKED;
    use crate::cases::worked::{CONVERTED, LISTED, REFUSED_RECORDS};
    use crate::Refusal;

    #[test]
    fn worked_trees_and_the_rest_of_the_slice() {
        for (record, bytes) in WORKED {
            let mut written = [0xa5; 12];
            assert_eq!(tree(record, &mut written), Ok(bytes.len()));
            assert_eq!(written[..bytes.len()], *bytes);
            assert!(written[bytes.len()..].iter().all(|&byte| byte == 0xa5));
        }
    }

    #[test]
    fn each_refusal_and_those_that_it_comes_before() {
        let pinwheels = [&LISTED[..], CONVERTED.1].map(|record| (record, Refusal::NotSlicing));
        for (record, refusal) in REFUSED_RECORDS.into_iter().chain(pinwheels) {
            let mut written = [0xa5; 763];
            assert_eq!(tree(record, &mut written), Err(refusal), "{record:02x?}");
            assert_eq!(tree(record, &mut []), Err(refusal), "{record:02x?}");
            assert_eq!(written, [0xa5; 763]);
        }
        for (record, bytes) in WORKED {
            let mut written = vec![0xa5; bytes.len() - 1];
            assert_eq!(tree(record, &mut written), Err(Refusal::SliceShort));
            assert!(written.iter().all(|&byte| byte == 0xa5));
        }
    }
}
