//! "The triple of a position" of the sheet.

/// The three bits of a position, in the sheet's order.
pub type Triple = [bool; 3];

/// The triples of positions 2 to n. Position 1 has none.
#[must_use]
pub fn triples(labels: &[u8]) -> Vec<Triple> {
    (1..labels.len())
        .map(|at| triple(&labels[..at], labels[at]))
        .collect()
}

/// The triple of a position with label `v`, from the labels at all earlier
/// positions:
///
/// - first: 1 if v + 1 stands at an earlier position;
/// - second: 1 if v − 1 stands at an earlier position;
/// - third: 1 if v is smaller than the label one position before.
fn triple(earlier: &[u8], v: u8) -> Triple {
    let stands_earlier = |label: Option<u8>| label.is_some_and(|label| earlier.contains(&label));
    [
        stands_earlier(v.checked_add(1)),
        stands_earlier(v.checked_sub(1)),
        earlier.last().is_some_and(|&before| v < before),
    ]
}

#[cfg(test)]
mod tests {
    use super::triples;
    use crate::cases::worked::code_of_figure_7;

    #[test]
    fn position_1_has_no_triple() {
        assert!(triples(&[]).is_empty());
        assert!(triples(&[1]).is_empty());
    }

    #[test]
    fn the_code_printed_with_figure_7_of_001() {
        assert_eq!(triples(&[2, 7, 3, 1, 5, 6, 4]), code_of_figure_7());
    }
}
