//! The runs and the table of eight steps in "The triple of a position" of the
//! sheet.

use crate::{Refusal, Triple};

/// The triples of the table, in its order.
pub const TRIPLES: [Triple; 8] = [
    [false, false, false],
    [false, true, false],
    [true, false, false],
    [true, true, false],
    [false, false, true],
    [true, false, true],
    [false, true, true],
    [true, true, true],
];

/// The runs of the labels seen so far, from the lowest to the highest.
///
/// The labels are not known before the end, so a run holds the positions of
/// its labels, again from the lowest label to the highest.
#[derive(Clone, Debug)]
pub struct Runs {
    runs: Vec<Vec<u8>>,
    current: usize,
    newest: u8,
}

impl Runs {
    /// The start: only position 1 is seen, so p = 0 and q = 0.
    #[must_use]
    pub fn start() -> Self {
        Self {
            runs: vec![vec![1]],
            current: 0,
            newest: 1,
        }
    }

    /// The number of runs below the current one.
    #[must_use]
    pub fn p(&self) -> usize {
        self.current
    }

    /// The number of runs above the current one.
    #[must_use]
    pub fn q(&self) -> usize {
        self.runs.len() - 1 - self.current
    }

    /// The table's column "Needs".
    #[must_use]
    pub fn have_what_it_needs(&self, triple: Triple) -> bool {
        match triple.map(u8::from) {
            [1, 0, 0] | [1, 1, 0] => self.q() >= 1,
            [0, 1, 1] | [1, 1, 1] => self.p() >= 1,
            _ => true,
        }
    }

    /// The table's column "New label": where the label of the next position
    /// goes, for a triple that has what it needs.
    pub fn step(&mut self, triple: Triple) {
        self.newest += 1;
        let (here, new) = (self.current, self.newest);
        match triple.map(u8::from) {
            // new run next above the current one
            [0, 0, 0] => {
                self.runs.insert(here + 1, vec![new]);
                self.current = here + 1;
            }
            // on top of the current run
            [0, 1, 0] => self.runs[here].push(new),
            // under the next run above
            [1, 0, 0] => {
                self.runs[here + 1].insert(0, new);
                self.current = here + 1;
            }
            // joins the current and next run above
            [1, 1, 0] => {
                let above = self.runs.remove(here + 1);
                self.runs[here].push(new);
                self.runs[here].extend(above);
            }
            // new run next below: it takes the current one's place
            [0, 0, 1] => self.runs.insert(here, vec![new]),
            // under the current run
            [1, 0, 1] => self.runs[here].insert(0, new),
            // on top of the next run below
            [0, 1, 1] => {
                self.runs[here - 1].push(new);
                self.current = here - 1;
            }
            // joins the current and next run below
            _ => {
                let upper = self.runs.remove(here);
                self.runs[here - 1].push(new);
                self.runs[here - 1].extend(upper);
                self.current = here - 1;
            }
        }
    }

    /// The labels by position, once all positions are seen: labels are ranks.
    #[must_use]
    pub fn labels(&self) -> Vec<u8> {
        let by_rank = self.runs.concat();
        let mut labels = vec![0; by_rank.len()];
        for (label, position) in (1..=255).zip(by_rank) {
            labels[usize::from(position) - 1] = label;
        }
        labels
    }
}

/// The label list that has the given triples, at most 254, at positions 2 to n.
///
/// # Errors
///
/// 12 if a triple needs a run that is missing, else 13 if there is more than
/// one run at the end.
pub fn labels_of(triples: &[Triple]) -> Result<Vec<u8>, Refusal> {
    let mut runs = Runs::start();
    for &triple in triples {
        if !runs.have_what_it_needs(triple) {
            return Err(Refusal::RunMissing);
        }
        runs.step(triple);
    }
    if (runs.p(), runs.q()) != (0, 0) {
        return Err(Refusal::RunsLeft);
    }
    Ok(runs.labels())
}

#[cfg(test)]
mod tests {
    use super::{labels_of, Runs, TRIPLES};
    use crate::cases::{every_code, BAXTER_NUMBERS};
    use crate::{is_barred, triples, Refusal};

    /// The table's column "p, q after", row by row as in [`TRIPLES`].
    fn after(p: usize, q: usize) -> [(usize, usize); 8] {
        [
            (p + 1, q),
            (p, q),
            (p + 1, q.wrapping_sub(1)),
            (p, q.wrapping_sub(1)),
            (p, q + 1),
            (p, q),
            (p.wrapping_sub(1), q + 1),
            (p.wrapping_sub(1), q),
        ]
    }

    /// Runs with `p` below the current one and `q` above it.
    fn runs(p: usize, q: usize) -> Runs {
        let mut runs = Runs::start();
        for _ in 0..q {
            runs.step([false, false, true]);
        }
        for _ in 0..p {
            runs.step([false, false, false]);
        }
        runs
    }

    #[test]
    fn steps_change_p_and_q_as_the_table_says() {
        for (p, q) in [(0, 0), (0, 1), (1, 0), (1, 1), (2, 3), (126, 127)] {
            for (triple, after) in TRIPLES.into_iter().zip(after(p, q)) {
                let mut runs = runs(p, q);
                assert_eq!((runs.p(), runs.q()), (p, q));
                let possible = after.0 != usize::MAX && after.1 != usize::MAX;
                assert_eq!(runs.have_what_it_needs(triple), possible);
                if possible {
                    runs.step(triple);
                    assert_eq!((runs.p(), runs.q()), after, "{triple:?} at {p}, {q}");
                }
            }
        }
    }

    #[test]
    fn every_walk_of_up_to_7_labels_gives_the_only_baxter_list_with_its_triples() {
        for (n, number) in (1..=7).zip(BAXTER_NUMBERS) {
            let mut accepted = 0;
            for walk in every_code(n) {
                match labels_of(&walk) {
                    Ok(labels) => {
                        assert!(!is_barred(&labels), "{labels:?}");
                        assert_eq!(triples(&labels), walk, "{labels:?}");
                        accepted += 1;
                    }
                    Err(refusal) => {
                        assert!([Refusal::RunMissing, Refusal::RunsLeft].contains(&refusal));
                    }
                }
            }
            // As many as there are Baxter lists, so none is left out.
            assert_eq!(accepted, number, "n = {n}");
        }
    }
}
