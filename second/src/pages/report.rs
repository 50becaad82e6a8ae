//! What is said of a page that shows something else, or of another table.

use crate::burnts::Case;
use std::fmt;

/// A log and its form, cut down, and what is wrong with the page or the table that the program writes of it.
#[derive(Debug)]
pub struct Difference {
    /// The number of the log that it was cut down from.
    pub number: usize,
    pub case: Case,
    pub words: String,
}

impl fmt::Display for Difference {
    fn fmt(&self, f: &mut fmt::Formatter) -> fmt::Result {
        writeln!(f, "what is written of log {} is not what it has to be; cut down, {}", self.number, self.case)?;
        writeln!(f, "{}", self.words)
    }
}
