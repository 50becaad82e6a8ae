//! What a run over logs met: how many logs and lines agreed, how often each kind, and which mistakes would have shown.

use std::collections::{BTreeMap, BTreeSet};
use std::fmt;

#[derive(Default)]
pub struct Tally {
    pub logs: usize,
    pub lines: usize,
    kinds: BTreeMap<&'static str, usize>,
    /// Their places in the list of mistakes.
    shown: BTreeSet<usize>,
}

impl Tally {
    pub fn meet(&mut self, kind: &'static str) {
        *self.kinds.entry(kind).or_default() += 1;
    }

    /// A mistake that has shown once is not tried again.
    pub fn show(&mut self, mistake: usize, shows: impl FnOnce() -> bool) {
        if !self.shown.contains(&mistake) && shows() {
            self.shown.insert(mistake);
        }
    }

    pub fn and(mut self, other: Tally) -> Tally {
        self.logs += other.logs;
        self.lines += other.lines;
        for (kind, times) in other.kinds {
            *self.kinds.entry(kind).or_default() += times;
        }
        self.shown.extend(other.shown);
        self
    }

    pub fn times(&self, kind: &str) -> usize {
        self.kinds.get(kind).copied().unwrap_or_default()
    }

    /// Of these mistakes, those that no log would have shown.
    pub fn missed(&self, mistakes: impl Iterator<Item = &'static str>) -> Vec<&'static str> {
        mistakes.enumerate().filter(|(place, _)| !self.shown.contains(place)).map(|(_, words)| words).collect()
    }

    /// How often each kind, then each mistake that was missed, then the count of all.
    pub fn tell(
        &self,
        f: &mut fmt::Formatter,
        kinds: (&str, &[&str]),
        alike: &str,
        mistakes: &[&'static str],
    ) -> fmt::Result {
        let (title, kinds) = kinds;
        let times: Vec<String> = kinds.iter().map(|kind| format!("{kind} {}", self.times(kind))).collect();
        writeln!(f, "{title}: {}", times.join("; "))?;
        let missed = self.missed(mistakes.iter().copied());
        missed.iter().try_for_each(|words| writeln!(f, "NOT FOUND: {words}"))?;
        let (all, found) = (mistakes.len(), mistakes.len() - missed.len());
        write!(f, "{} logs, {} lines {alike}; {found} of {all} deliberate mistakes found", self.logs, self.lines)
    }
}
