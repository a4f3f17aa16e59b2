//! The count of cases.

use reference::Refusal;
use std::fmt;
use std::io::Write;
use std::ops::AddAssign;

/// Counts the cases that were compared, by their answers. What compares a case
/// of a call is in that call's module.
#[derive(Debug)]
pub struct Tally {
    name: &'static str,
    cases: usize,
    accepted: usize,
    refused: [usize; Refusal::ALL.len() + 1],
}

impl Tally {
    /// No case yet. The name stands in what is printed at the end.
    #[must_use]
    pub fn new(name: &'static str) -> Self {
        Self {
            name,
            cases: 0,
            accepted: 0,
            refused: [0; Refusal::ALL.len() + 1],
        }
    }

    /// How many cases were compared.
    #[must_use]
    pub fn cases(&self) -> usize {
        self.cases
    }

    /// How many cases were accepted.
    #[must_use]
    pub fn accepted(&self) -> usize {
        self.accepted
    }

    /// How many cases were refused with `refusal`.
    #[must_use]
    pub fn refused(&self, refusal: Refusal) -> usize {
        self.refused[usize::from(refusal.number())]
    }

    /// Stops unless just so many cases were refused with these.
    ///
    /// # Panics
    ///
    /// If not so.
    pub fn expect_refused<const COUNTS: usize>(
        &self,
        refusals: [Refusal; COUNTS],
        counts: [usize; COUNTS],
    ) {
        assert_eq!(refusals.map(|r| self.refused(r)), counts, "{refusals:?}");
    }

    /// Stops unless more than so many cases were refused with each of these:
    /// else too little of it would have been tried.
    ///
    /// # Panics
    ///
    /// If not so.
    pub fn expect_often(&self, count: usize, refusals: &[Refusal]) {
        for &refusal in refusals {
            assert!(self.refused(refusal) > count, "too few with {refusal:?}");
        }
    }

    /// Prints the counts for so many inputs, each of which was accepted in two
    /// cases and refused in a third one, where a slice was too short.
    ///
    /// # Panics
    ///
    /// If not so.
    pub fn finish_in_threes(self, inputs: usize) {
        assert_eq!(self.accepted, 2 * inputs, "{self}");
        self.expect_refused([Refusal::SliceShort], [inputs]);
        self.finish(3 * inputs);
    }

    /// Prints the counts.
    ///
    /// # Panics
    ///
    /// If fewer than `least` cases were compared.
    pub fn finish(self, least: usize) {
        report(&self);
        assert!(self.cases >= least, "{self}, meant were {least}");
    }

    /// Counts a case with the answer that all versions agree on.
    pub(crate) fn count<A>(&mut self, answer: &Result<A, Refusal>) {
        self.cases += 1;
        match answer {
            Ok(_) => self.accepted += 1,
            Err(refusal) => self.refused[usize::from(refusal.number())] += 1,
        }
    }
}

impl AddAssign for Tally {
    /// Counts the cases of another tally too.
    fn add_assign(&mut self, other: Self) {
        self.cases += other.cases;
        self.accepted += other.accepted;
        for (count, more) in self.refused.iter_mut().zip(other.refused) {
            *count += more;
        }
    }
}

impl fmt::Display for Tally {
    fn fmt(&self, f: &mut fmt::Formatter<'_>) -> fmt::Result {
        write!(f, "{}: {} cases compared", self.name, grouped(self.cases))?;
        write!(f, " ({} accepted", grouped(self.accepted))?;
        for (number, &count) in self.refused.iter().enumerate().filter(|(_, &c)| c > 0) {
            write!(f, ", {} refused with {number}", grouped(count))?;
        }
        write!(f, ")")
    }
}

/// A number as it is read, with a comma before each three digits.
#[must_use]
pub fn grouped(number: usize) -> String {
    let digits = number.to_string();
    let mut text = String::new();
    for (place, digit) in digits.char_indices() {
        if place > 0 && (digits.len() - place).is_multiple_of(3) {
            text.push(',');
        }
        text.push(digit);
    }
    text
}

/// Prints a line even where the test harness keeps back what is printed.
pub fn report(line: impl fmt::Display) {
    let _ = writeln!(std::io::stderr(), "{line}");
}

#[cfg(test)]
mod tests {
    use super::grouped;

    #[test]
    fn digits_stand_in_threes() {
        let numbers = [0, 7, 999, 1_000, 65_535, 123_456, 1_234_567];
        let read = ["0", "7", "999", "1,000", "65,535", "123,456", "1,234,567"];
        assert_eq!(numbers.map(grouped), read);
    }
}
