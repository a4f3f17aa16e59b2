//! When a plan is slicing, in the words of M-103.

/// Whether a plan with these labels is slicing: no four of its labels, in
/// order of position, are shaped like 2413 or 3142.
///
/// All four positions are searched, which takes long for long lists.
#[must_use]
pub fn is_slicing(labels: &[u8]) -> bool {
    let n = labels.len();
    for i in 0..n {
        for j in i + 1..n {
            for k in j + 1..n {
                for l in k + 1..n {
                    let four = [i, j, k, l].map(|place| labels[place]);
                    if are_shaped_like([2, 4, 1, 3], four) || are_shaped_like([3, 1, 4, 2], four) {
                        return false;
                    }
                }
            }
        }
    }
    true
}

/// Whether four labels are in the same order as those of a shape: by size, any
/// two stand to each other as the two at these places of the shape do.
fn are_shaped_like(shape: [u8; 4], labels: [u8; 4]) -> bool {
    let order = |four: [u8; 4]| four.map(|one| four.map(|other| one.cmp(&other)));
    order(shape) == order(labels)
}

#[cfg(test)]
mod tests {
    use super::is_slicing;
    use crate::cases::slicing::TABLE_1;
    use crate::cases::walk::{list_in_turn, Walked};
    use crate::cases::{baxter_lists, Random};
    use crate::{cutting_tree, drawing};

    /// Whether lines cut the drawing of a Baxter list down to its rooms, once
    /// that is what the request's sentence says.
    fn is_cut(labels: &[u8]) -> bool {
        let tree = cutting_tree(&drawing(labels));
        assert_eq!(tree.is_some(), is_slicing(labels), "{labels:?}");
        tree.is_some()
    }

    #[test]
    fn every_baxter_list_of_up_to_7_labels_is_slicing_exactly_if_its_drawing_is_cut() {
        for (n, (slicing, mosaic)) in (1..=7).zip(TABLE_1) {
            let lists = baxter_lists(n);
            assert_eq!(lists.len(), mosaic, "n = {n}");
            let cut = lists.iter().filter(|labels| is_cut(labels)).count();
            assert_eq!(cut, slicing, "n = {n}");
        }
    }

    #[test]
    fn random_baxter_lists_are_slicing_exactly_if_their_drawings_are_cut() {
        let mut random = Random::from_seed(101);
        let mut cut = 0;
        for round in 0..3_000 {
            let n = random.between(8, 16);
            let Walked { labels, .. } = list_in_turn(n, round, &mut random);
            cut += usize::from(is_cut(&labels));
        }
        assert!((300..2_700).contains(&cut), "{cut} of 3,000 are cut");
    }

    #[test]
    fn the_two_shapes_and_the_pinwheels_that_have_them() {
        for shape in [[2, 4, 1, 3], [3, 1, 4, 2]] {
            assert!(!is_slicing(&shape));
        }
        for pinwheel in [[4, 1, 3, 5, 2], [2, 5, 3, 1, 4]] {
            assert!(!is_slicing(&pinwheel));
        }
        assert!(is_slicing(&[3, 4, 1, 2]) && is_slicing(&[2, 1, 4, 3]));
    }
}
