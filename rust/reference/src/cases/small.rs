//! All inputs of a small size.

use crate::{is_barred, Triple, TRIPLES};

/// The Baxter numbers, which count the Baxter lists of n labels, as 000 and 001
/// print them for n = 1 to 7; the one for n = 8 comes from their formula.
pub const BAXTER_NUMBERS: [usize; 8] = [1, 2, 6, 22, 92, 422, 2074, 10_754];

/// The number of Baxter lists of 1 to `most` labels.
#[must_use]
pub fn baxter_lists_up_to(most: usize) -> usize {
    BAXTER_NUMBERS[..most].iter().sum()
}

/// Every list of `length` entries from 0 to `greatest`.
pub fn every_list(greatest: u8, length: u32) -> impl Iterator<Item = Vec<u8>> {
    let base = usize::from(greatest) + 1;
    (0..base.pow(length)).map(move |number| {
        let digits = (0..length).map(|place| number / base.pow(place) % base);
        digits
            .map(|digit| u8::try_from(digit).expect("a digit is at most the greatest entry"))
            .collect()
    })
}

/// Every list of triples that `n` positions can have, walks or not.
pub fn every_code(n: u8) -> impl Iterator<Item = Vec<Triple>> {
    every_list(7, u32::from(n) - 1).map(|rows| {
        let triples = rows.into_iter().map(|row| TRIPLES[usize::from(row)]);
        triples.collect()
    })
}

/// Calls `visit` with every list that has each of the labels 1 to `n` once.
pub fn each_permutation(n: u8, mut visit: impl FnMut(&[u8])) {
    let mut labels: Vec<u8> = (1..=n).collect();
    each_order(&mut labels, 0, &mut visit);
}

/// Calls `visit` with every order of the entries from `fixed` on.
fn each_order(labels: &mut [u8], fixed: usize, visit: &mut impl FnMut(&[u8])) {
    if fixed == labels.len() {
        visit(labels);
    }
    for other in fixed..labels.len() {
        labels.swap(fixed, other);
        each_order(labels, fixed + 1, visit);
        labels.swap(fixed, other);
    }
}

/// Every Baxter list of `n` labels.
#[must_use]
pub fn baxter_lists(n: u8) -> Vec<Vec<u8>> {
    let mut lists = Vec::new();
    each_permutation(n, |labels| {
        if !is_barred(labels) {
            lists.push(labels.to_vec());
        }
    });
    lists
}

#[cfg(test)]
mod tests {
    use super::{baxter_lists, BAXTER_NUMBERS};

    #[test]
    fn there_are_as_many_baxter_lists_as_000_and_001_print() {
        for (n, number) in (1..=7).zip(BAXTER_NUMBERS) {
            assert_eq!(baxter_lists(n).len(), number, "n = {n}");
        }
    }
}
