//! What a run met, and which mistakes would have shown.

use super::kinds::{KINDS, kinds};
use super::{Case, Played};
use crate::logs::recorded;
use crate::replay::lines;
use crate::tally::Tally;
use std::fmt;

pub struct Met {
    played: Played,
    tally: Tally,
}

impl Met {
    pub fn new(played: Played) -> Met {
        Met { played, tally: Tally::default() }
    }

    /// One more log for which the same was printed.
    pub fn count(&mut self, case: &Case, out: &[u8]) {
        self.tally.logs += 1;
        self.tally.lines += lines(&case.fed.log).count();
        kinds(case, out).into_iter().for_each(|kind| self.tally.meet(kind));
        for (place, (_, wrong)) in self.played.mistakes().enumerate() {
            self.tally.show(place, || wrong.printed(case.form(), &case.fed.log) != out);
        }
    }

    pub fn and(self, other: Met) -> Met {
        Met { played: self.played, tally: self.tally.and(other.tally) }
    }

    pub fn times(&self, kind: &str) -> usize {
        self.tally.times(kind)
    }

    fn mistakes(&self) -> Vec<&'static str> {
        self.played.mistakes().map(|(words, _)| *words).collect()
    }

    /// The mistakes that no log would have shown.
    pub fn missed(&self) -> Vec<&'static str> {
        self.tally.missed(self.mistakes().into_iter())
    }
}

impl fmt::Display for Met {
    fn fmt(&self, f: &mut fmt::Formatter) -> fmt::Result {
        let alike = match self.played {
            Played::Burnt => "told alike by burnt",
            Played::Replay => "played back alike by replay, on forms too",
        };
        let kinds = [&KINDS[..], &recorded::KINDS].concat();
        self.tally.tell(f, ("met", &kinds), alike, &self.mistakes())
    }
}
