//! What the program `plancount` should print.

use crate::program::Program;
use crate::tally::Tally;

impl Program {
    /// The program `plancount`, which the variable `NENTURXO_PLANCOUNT` names.
    /// What it prints is compared with what the request says, byte for byte.
    ///
    /// # Panics
    ///
    /// Without that variable.
    #[must_use]
    pub fn plancount() -> Self {
        Self::named_by("NENTURXO_PLANCOUNT", compare)
    }
}

/// The program reads nothing, so any input makes no difference.
fn compare(printed: &str, _: &[u8]) -> Result<(), String> {
    let expected = reference::plancount();
    if printed == expected {
        Ok(())
    } else {
        Err(format!("other lines than\n{expected}"))
    }
}

impl Tally {
    /// Runs `plancount` with an input and compares what it prints.
    ///
    /// # Panics
    ///
    /// If it prints anything else than it should, or ends with another status
    /// than 0.
    pub fn plancount(&mut self, program: &Program, input: &[u8]) {
        let status = program.judged(&[input]);
        assert!(status.success(), "{status}");
        self.count(&Ok(()));
    }
}
