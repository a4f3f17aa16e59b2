//! What the program `planlist` should print.

use crate::program::Program;

impl Program {
    /// The program `planlist`, which the variable `NENTURXO_PLANLIST` names.
    /// What it prints is compared with what the sheet says, byte for byte.
    ///
    /// # Panics
    ///
    /// Without that variable.
    #[must_use]
    pub fn planlist() -> Self {
        Self::named_by("NENTURXO_PLANLIST", compare)
    }
}

fn compare(printed: &str, input: &[u8]) -> Result<(), String> {
    let expected = reference::planlist(input);
    if printed == expected {
        Ok(())
    } else {
        Err(format!("another listing than {expected}"))
    }
}
