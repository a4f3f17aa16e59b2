//! How many plans there are, of M-112: its calls "Plan count" and "Plan total",
//! and its program `plancount`.

use crate::cases::every_code;
use crate::{plan_of, record_of, triples_in, Refusal};
use std::collections::BTreeMap;
use std::sync::OnceLock;

/// Plans of 1 to so many rooms are counted.
const MOST_ROOMS: u8 = 17;

/// The records of so many rooms are few enough to be judged one by one.
const FEW_ROOMS: u8 = 7;

/// Plan count: how many accepted records of n rooms have so many rises. For n
/// rises and more that is 0.
///
/// # Errors
///
/// 30 for n of 0 or above 17, the only check.
pub fn plan_count(n: u8, rises: u8) -> Result<u64, Refusal> {
    let counts = kept_counts_of(n)?;
    Ok(counts.get(usize::from(rises)).copied().unwrap_or(0))
}

/// Plan total: how many accepted records of n rooms there are.
///
/// # Errors
///
/// 30 for n of 0 or above 17, the only check.
pub fn plan_total(n: u8) -> Result<u64, Refusal> {
    Ok(kept_counts_of(n)?.iter().sum())
}

/// What the program prints: one line per pair for all 17 values of n: n, rises,
/// count, one space between, by rising n and then rising rises.
///
/// # Panics
///
/// Never: plans of 1 to 17 rooms are counted.
#[must_use]
pub fn plancount() -> String {
    let mut text = String::new();
    for n in 1..=MOST_ROOMS {
        for rises in 0..n {
            let count = plan_count(n, rises).expect("n is from 1 to 17");
            text += &format!("{n} {rises} {count}\n");
        }
    }
    text
}

/// For each number of rises from 0 to n − 1, how many accepted records of n rooms
/// have it. This is found anew each time, which takes long for some n; the calls
/// keep it.
///
/// # Errors
///
/// 30 for n of 0 or above 17.
pub fn counts_of(n: u8) -> Result<Vec<u64>, Refusal> {
    if !(1..=MOST_ROOMS).contains(&n) {
        return Err(Refusal::NotCounted);
    }
    if n <= FEW_ROOMS {
        Ok(counts_by_judging(n))
    } else {
        Ok(counts_by_growing(n))
    }
}

/// The same, found once.
fn kept_counts_of(n: u8) -> Result<&'static [u64], Refusal> {
    static KEPT: [OnceLock<Result<Vec<u64>, Refusal>>; 256] = [const { OnceLock::new() }; 256];
    let counts = KEPT[usize::from(n)].get_or_init(|| counts_of(n));
    counts.as_deref().map_err(|&refusal| refusal)
}

/// Judges every record of n rooms. Records of another form than these are refused
/// whatever their triples are.
fn counts_by_judging(n: u8) -> Vec<u64> {
    let mut counts = vec![0; usize::from(n)];
    for code in every_code(n) {
        let record = record_of(n, &code);
        if plan_of(&record).is_ok() {
            counts[rises_in(&record)] += 1;
        }
    }
    counts
}

/// The rises of an accepted record: the third bits of 0 of its triples.
fn rises_in(record: &[u8]) -> usize {
    let triples = triples_in(record).expect("the record is accepted");
    triples.iter().filter(|triple| !triple[2]).count()
}

/// Counts the Baxter lists of n labels in place of the accepted records of n
/// rooms. There is one list for each record, and a third bit of 0 says that the
/// label is greater than the one before, which is a rise of the list as 000 has
/// it in Definition 4.1.
fn counts_by_growing(n: u8) -> Vec<u64> {
    let mut lists = one_label();
    for _ in 1..n {
        lists = one_label_more(&lists);
    }
    let mut counts = vec![0; usize::from(n)];
    for (list, count) in lists {
        counts[list.rises] += count;
    }
    counts
}

/// What is known of a Baxter list whose labels are only counted.
#[derive(Clone, Copy, Debug, PartialEq, Eq, PartialOrd, Ord)]
struct Known {
    /// Its left-to-right maxima: labels greater than all before.
    from_left: usize,
    /// Its right-to-left maxima: labels greater than all behind.
    from_right: usize,
    /// Its rises.
    rises: usize,
}

/// How many Baxter lists there are of which this is known.
type Lists = BTreeMap<Known, u64>;

/// The only list of one label.
fn one_label() -> Lists {
    let list = Known {
        from_left: 1,
        from_right: 1,
        rises: 0,
    };
    Lists::from([(list, 1)])
}

/// The lists of one label more, from those of some number of labels.
///
/// A Baxter list without its greatest label is one too, and a new greatest label
/// can stand just before a left-to-right maximum or just after a right-to-left
/// maximum, and nowhere else.
///
/// - Before the k-th left-to-right maximum, k − 1 of them stay, and the new label
///   is the next and last one. It is also one more right-to-left maximum, the
///   first: all others stand behind. Whatever stood before the old maximum rose
///   to it and now rises to the new label, from which the list falls: no rise
///   more.
/// - After a right-to-left maximum likewise: k − 1 of those stay and the new label
///   is one more left-to-right maximum. The list fell from the old maximum, or
///   ended with it, and now rises from it and falls from the new label, or ends
///   with that: one rise more.
fn one_label_more(lists: &Lists) -> Lists {
    let mut more = Lists::new();
    for (&list, &count) in lists {
        for k in 1..=list.from_left {
            let grown = Known {
                from_left: k,
                from_right: list.from_right + 1,
                rises: list.rises,
            };
            *more.entry(grown).or_default() += count;
        }
        for k in 1..=list.from_right {
            let grown = Known {
                from_left: list.from_left + 1,
                from_right: k,
                rises: list.rises + 1,
            };
            *more.entry(grown).or_default() += count;
        }
    }
    more
}

#[cfg(test)]
mod tests;
