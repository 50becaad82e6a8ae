//! What a run over logs met, and what is said of a difference.

use super::{Fed, recorded};
use crate::replay::history::is_history;
use crate::replay::{LONGEST, lines, mistakes, text_of};
use crate::tally::Tally;
use std::fmt;

/// How often a line was of each kind, and which mistakes would have shown.
#[derive(Default)]
pub struct Met(Tally);

/// What a line of the first kind is and what it is told.
pub const KINDS: [&str; 13] = [
    "O, greeted",
    "O, ! 5",
    "R, a reply",
    "R, -",
    "R, ! 4",
    "T",
    "X, -",
    "X, ! 4",
    "empty",
    "with a CR",
    "over 4,096 bytes",
    "of 4,096 bytes",
    "of no other form",
];

fn kind(line: &[u8], told: &[u8]) -> &'static str {
    let line = text_of(line);
    match (line, told) {
        _ if line.len() == LONGEST => "of 4,096 bytes",
        _ if line.len() > LONGEST => "over 4,096 bytes",
        ([], _) => "empty",
        (_, b"?") if line.contains(&b'\r') => "with a CR",
        (_, b"?") => "of no other form",
        ([b'O', ..], b"! 5") => "O, ! 5",
        ([b'O', ..], _) => "O, greeted",
        ([b'R', ..], b"! 4") => "R, ! 4",
        ([b'R', ..], b"-") => "R, -",
        ([b'R', ..], _) => "R, a reply",
        ([b'X'], b"! 4") => "X, ! 4",
        ([b'X'], _) => "X, -",
        _ => "T",
    }
}

impl Met {
    /// One more log that was played alike.
    pub fn count(&mut self, log: &[u8], out: &[u8]) {
        self.0.logs += 1;
        if is_history(log) {
            self.0.meet(recorded::kind(out));
            self.0.lines += lines(log).count();
        } else {
            self.count_lines(log, out);
        }
        for (place, (_, wrong)) in mistakes::all().enumerate() {
            self.0.show(place, || wrong.replayed(log) != out);
        }
    }

    fn count_lines(&mut self, log: &[u8], out: &[u8]) {
        for (line, out) in lines(log).zip(lines(out)) {
            let told = out.splitn(2, |&byte| byte == b' ').last().unwrap_or_default();
            self.0.meet(kind(line, told.trim_ascii_end()));
            self.0.lines += 1;
        }
    }

    pub fn and(self, other: Met) -> Met {
        Met(self.0.and(other.0))
    }

    pub fn times(&self, kind: &str) -> usize {
        self.0.times(kind)
    }

    /// The mistakes that no log would have shown.
    pub fn missed(&self) -> Vec<&'static str> {
        self.0.missed(mistakes::all().map(|(words, _)| *words))
    }
}

impl fmt::Display for Met {
    fn fmt(&self, f: &mut fmt::Formatter) -> fmt::Result {
        let all: Vec<&'static str> = mistakes::all().map(|(words, _)| *words).collect();
        let kinds = [&KINDS[..], &recorded::KINDS].concat();
        self.0.tell(f, ("lines", &kinds), "played back alike", &all)
    }
}

/// A log, cut down, for which the program prints something else.
#[derive(Debug)]
pub struct Difference {
    /// The number of the log that it was cut down from.
    pub number: usize,
    pub fed: Fed,
    pub expected: Vec<u8>,
    pub given: Vec<u8>,
}

impl fmt::Display for Difference {
    fn fmt(&self, f: &mut fmt::Formatter) -> fmt::Result {
        writeln!(f, "log {} differs; cut down, in reads of {:?} bytes:", self.number, self.fed.reads)?;
        lines(&self.fed.log).try_for_each(|line| writeln!(f, "  {}", shown(line)))?;
        let place = lines(&self.expected).zip(lines(&self.given)).take_while(|(a, b)| a == b).count();
        let printed = |out: &[u8]| lines(out).nth(place).map_or("nothing more".to_string(), shown);
        writeln!(f, "the rules print    {}", printed(&self.expected))?;
        writeln!(f, "the program prints {}", printed(&self.given))
    }
}

/// A line's bytes, the middle of a long one left out.
pub fn shown(line: &[u8]) -> String {
    match line {
        [first @ .., _] if first.len() > 200 => {
            format!("{}..{} ({} bytes)", line[..60].escape_ascii(), line[line.len() - 60..].escape_ascii(), line.len())
        }
        _ => line.escape_ascii().to_string(),
    }
}
