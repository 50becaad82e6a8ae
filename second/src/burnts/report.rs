//! What is said of a difference.

use super::Case;
use crate::logs::report::shown;
use crate::replay::lines;
use std::fmt;

/// A log and its form, cut down, for which the program prints something else.
#[derive(Debug)]
pub struct Difference {
    /// The number of the log that it was cut down from.
    pub number: usize,
    pub case: Case,
    pub expected: Vec<u8>,
    pub given: Vec<u8>,
}

impl fmt::Display for Case {
    fn fmt(&self, f: &mut fmt::Formatter) -> fmt::Result {
        writeln!(f, "in reads of {:?} bytes:", self.fed.reads)?;
        match self.form() {
            Some(form) => writeln!(f, "  on the form {}", shown(form))?,
            None => writeln!(f, "  on the sample set-up")?,
        }
        if !self.files.is_empty() {
            writeln!(f, "  in files that begin at {:?}", self.files)?;
        }
        lines(&self.fed.log).try_for_each(|line| writeln!(f, "  {}", shown(line)))
    }
}

impl fmt::Display for Difference {
    fn fmt(&self, f: &mut fmt::Formatter) -> fmt::Result {
        write!(f, "log {} differs; cut down, {}", self.number, self.case)?;
        let place = lines(&self.expected).zip(lines(&self.given)).take_while(|(a, b)| a == b).count();
        let printed = |out: &[u8]| lines(out).nth(place).map_or("nothing more".to_string(), shown);
        writeln!(f, "the rules print    {}", printed(&self.expected))?;
        writeln!(f, "the program prints {}", printed(&self.given))
    }
}
