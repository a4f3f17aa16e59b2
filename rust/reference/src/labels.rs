//! The call "Labels in" of the sheet.

use crate::{is_barred, record_of, triples, Refusal};

/// Labels in: writes the record of the label list to the front of `record`
/// and gives its length.
///
/// Bytes of `record` after the record keep their values.
///
/// # Errors
///
/// The first cause found in the order 1, 6, 7, 8, 15; `record` is then as it
/// was.
pub fn labels_in(labels: &[u8], record: &mut [u8]) -> Result<usize, Refusal> {
    let list = baxter_list_of(labels)?;
    let bytes = record_of(list.n, &triples(&list.labels));
    let front = record.get_mut(..bytes.len()).ok_or(Refusal::SliceShort)?;
    front.copy_from_slice(&bytes);
    Ok(bytes.len())
}

/// A list of the labels 1 to n, each once: what a label list is that has none
/// of the causes 1, 6 and 7.
pub(crate) struct LabelList {
    /// The number of labels.
    pub(crate) n: u8,
    /// The labels by position.
    pub(crate) labels: Vec<u8>,
}

/// The list of the labels 1 to n, each once, that a list of numbers is, be they
/// bytes or larger.
///
/// # Errors
///
/// The first cause found in the order 1, 6, 7.
pub(crate) fn label_list_of<T>(numbers: &[T]) -> Result<LabelList, Refusal>
where
    T: Copy + TryInto<u8>,
{
    let n = room_count(numbers).ok_or(Refusal::ListLength)?;
    // n is at most 255, so a number that is no byte is outside 1 to n.
    let label = |&number: &T| {
        let label = number.try_into().ok();
        label.filter(|label| (1..=n).contains(label))
    };
    let labels: Option<Vec<u8>> = numbers.iter().map(label).collect();
    let labels = labels.ok_or(Refusal::LabelOutside)?;
    if occurs_twice(&labels) {
        return Err(Refusal::LabelTwice);
    }
    Ok(LabelList { n, labels })
}

/// The Baxter list that a list of numbers is, be they bytes or larger.
///
/// # Errors
///
/// The first cause found in the order 1, 6, 7, 8.
pub(crate) fn baxter_list_of<T>(numbers: &[T]) -> Result<LabelList, Refusal>
where
    T: Copy + TryInto<u8>,
{
    let list = label_list_of(numbers)?;
    if is_barred(&list.labels) {
        return Err(Refusal::BarredPattern);
    }
    Ok(list)
}

/// The number of entries, if there are 1 to 255.
pub(crate) fn room_count<T>(list: &[T]) -> Option<u8> {
    u8::try_from(list.len()).ok().filter(|&n| n >= 1)
}

/// Whether some label stands at two positions.
fn occurs_twice(labels: &[u8]) -> bool {
    (0..labels.len()).any(|at| labels[..at].contains(&labels[at]))
}
