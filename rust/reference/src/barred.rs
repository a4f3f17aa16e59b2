//! "Barred patterns" of the sheet.

/// Whether some positions i < j < k < l have labels a, b, c, d there with
/// c < a + 1 = d < b, or with b < d + 1 = a < c.
///
/// Both conditions tie d to a, so only pairs i < l with d = a + 1 or
/// a = d + 1 are looked into. Between such a pair it is enough to take the
/// first b that fits: whatever c stands after another b stands after that one.
#[must_use]
pub fn is_barred(labels: &[u8]) -> bool {
    // Wider numbers, so that 255 + 1 is 256.
    let labels: Vec<u16> = labels.iter().map(|&label| u16::from(label)).collect();

    (0..labels.len()).any(|i| {
        (i + 1..labels.len()).any(|l| {
            let (a, between, d) = (labels[i], &labels[i + 1..l], labels[l]);
            (a + 1 == d && in_turn(between, |b| d < b, |c| c < a + 1))
                || (d + 1 == a && in_turn(between, |b| b < d + 1, |c| a < c))
        })
    })
}

/// Whether an entry that fits `first` stands before one that fits `second`.
fn in_turn(entries: &[u16], first: impl Fn(u16) -> bool, second: impl Fn(u16) -> bool) -> bool {
    let mut from_first = entries.iter().skip_while(|&&entry| !first(entry)).skip(1);
    from_first.any(|&entry| second(entry))
}

#[cfg(test)]
mod tests {
    use super::is_barred;
    use crate::cases::{every_list, Random};

    /// The definition to the letter: all four positions are searched.
    fn is_barred_to_the_letter(labels: &[u8]) -> bool {
        let n = labels.len();
        let label = |position: usize| u16::from(labels[position]);
        for i in 0..n {
            for j in i + 1..n {
                for k in j + 1..n {
                    for l in k + 1..n {
                        let (a, b, c, d) = (label(i), label(j), label(k), label(l));
                        if (c < a + 1 && a + 1 == d && d < b) || (b < d + 1 && d + 1 == a && a < c)
                        {
                            return true;
                        }
                    }
                }
            }
        }
        false
    }

    #[test]
    fn agrees_with_the_definition_to_the_letter_on_every_small_list() {
        let mut barred = 0;
        for (greatest, length) in [(8, 4), (6, 5), (6, 6), (5, 7)] {
            for labels in every_list(greatest, length) {
                let answer = is_barred(&labels);
                assert_eq!(answer, is_barred_to_the_letter(&labels), "{labels:?}");
                barred += usize::from(answer);
            }
        }
        assert!(barred > 10_000, "only {barred} barred lists were met");
    }

    #[test]
    fn agrees_with_the_definition_to_the_letter_on_shuffled_lists() {
        let mut random = Random::from_seed(1);
        let mut barred = 0;
        for round in 0..400 {
            // A slight shuffle: 0 to 39 times two neighbours trade places.
            let mut labels: Vec<u8> = (200..=255).collect();
            for _ in 0..round % 40 {
                let place = random.below(labels.len() - 1);
                labels.swap(place, place + 1);
            }
            let answer = is_barred(&labels);
            assert_eq!(answer, is_barred_to_the_letter(&labels), "{labels:?}");
            barred += usize::from(answer);
        }
        assert!((100..300).contains(&barred), "{barred} of 400 were barred");
    }
}
