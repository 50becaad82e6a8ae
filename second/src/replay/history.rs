//! RULES, History of a board: a log of the second kind, played again up to the first line that does not belong.

use super::sample;
use crate::compare::forms::stored_of;
use crate::reference::Projector;
use crate::reference::recorded::chain::make;
use crate::reference::recorded::{Call, Entry, Log, Why};
use crate::reference::text::LF;

/// Whoever plays a history: its projector, and how it makes a call.
pub trait Player {
    fn projector(&self) -> &Projector;
    fn make(&mut self, call: &Call) -> Result<Vec<u8>, Why>;
}

impl Player for Projector {
    fn projector(&self) -> &Projector {
        self
    }

    fn make(&mut self, call: &Call) -> Result<Vec<u8>, Why> {
        make(self, call)
    }
}

/// What a program asks at each line, so that a mistake can answer one of them in another way.
#[derive(Clone, Copy)]
pub struct Steps {
    /// Whether a log with this first line, which has its LF where it has one, is a history.
    pub is_history: fn(&[u8]) -> bool,
    /// The log before its first file.
    pub begun: fn(Option<&[u8]>) -> Log,
    /// The text of a line with the LF that it has, if it may be played.
    pub text: fn(&[u8]) -> Option<&[u8]>,
    /// Whether a line that does not belong is passed over, and the next ones are played.
    pub passes_over: fn(Why) -> bool,
}

pub const RIGHT: Steps = Steps { is_history, begun, text: ended, passes_over: |_| false };

/// "a log is of the second kind if its first line begins with the four bytes `LOG `".
pub fn is_history(first: &[u8]) -> bool {
    first.starts_with(b"LOG ")
}

/// "The sum of file 1 is the CRC-32 of the stored form: of the form file's bytes where one is named, else of the form that
/// `stored` writes of the sample set-up."
pub fn begun(form: Option<&[u8]>) -> Log {
    match form {
        Some(form) => Log::begun(form),
        None => Log::begun(&stored_of(&sample().record())),
    }
}

/// "What stands behind the last LF of a file was cut, and is no line."
fn ended(line: &[u8]) -> Option<&[u8]> {
    line.strip_suffix(&[LF])
}

/// A history that is played.
pub struct History<'a> {
    steps: &'a Steps,
    pub log: Log,
    /// The lines so far.
    number: u64,
    /// The first line that did not belong, and why.
    pub stray: Option<(u64, Why)>,
}

impl History<'_> {
    pub fn begun<'a>(steps: &'a Steps, form: Option<&[u8]>) -> History<'a> {
        History { steps, log: (steps.begun)(form), number: 0, stray: None }
    }

    /// Plays a line, which has its LF where it has one: its number and its reply; none from the first that does not belong on.
    pub fn play(&mut self, player: &mut impl Player, line: &[u8]) -> Option<(u64, Vec<u8>)> {
        self.number += 1;
        if self.stray.is_some() {
            return None;
        }
        match self.made(player, line) {
            Ok(reply) => Some((self.number, reply)),
            Err(why) if (self.steps.passes_over)(why) => Some((self.number, Vec::new())),
            Err(why) => {
                self.stray = Some((self.number, why));
                None
            }
        }
    }

    fn made(&mut self, player: &mut impl Player, line: &[u8]) -> Result<Vec<u8>, Why> {
        let text = (self.steps.text)(line).ok_or(Why::Unended)?;
        let entry = self.log.fits(player.projector(), text)?;
        let reply = match &entry {
            Entry::Call(call) => player.make(call)?,
            Entry::Header { .. } | Entry::Stated { .. } => Vec::new(),
        };
        self.log = self.log.past(&entry, text).expect("it fits");
        Ok(reply)
    }

    /// What is printed last where a line did not belong.
    pub fn words(&self) -> Option<String> {
        self.stray.map(|(number, why)| format!("! line {number}: {why}"))
    }
}
