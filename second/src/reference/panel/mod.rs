//! RULES, Panel: the workroom panel. `record` reads the record that a host keeps, `calls` has the calls with their
//! numbers; `known` has what is shown; here is what a line, a command and a lost connection mean.

pub mod calls;
pub mod known;
#[cfg(test)]
mod legal;
pub mod record;
#[cfg(test)]
mod tests;

use super::calls::OUT_OF_RANGE;
use super::connection::ERRA_LINE;
use super::controller::{self, Command, Greeting};
use super::replies::{Meaning, OTHER_COMMAND, PARAMETER_NOT_ALLOWED, meaning};
use super::rules::{Mistake, made};
use crate::face;
use known::Known;

/// "up to eight projectors".
pub const MOST_PROJECTORS: usize = 8;
/// "stopped at 65,535".
pub const MOST_STRAYS: u32 = 65_535;
/// "A command before the greeting or over another is new number 9".
pub const NOT_READY: u32 = 9;

/// A panel in a legal state. What a record can say and the header forbids has no form here.
#[derive(Clone, PartialEq, Eq, Debug)]
pub struct Panel(pub Vec<Entry>);

/// "each with its own password, greeting, one command under way, and last known power, input and lamps."
#[derive(Clone, PartialEq, Eq, Debug)]
pub struct Entry {
    pub password: Vec<u8>,
    pub greeted: Option<Greeted>,
    pub known: Known,
    pub strays: u32,
}

/// A projector whose greeting has come; the command is kept "as it was given".
#[derive(Clone, Copy, PartialEq, Eq, Debug)]
pub struct Greeted {
    pub secured: Option<Secured>,
    pub under_way: Option<face::Command>,
}

/// "`led`: the digest was sent since the greeting."
#[derive(Clone, Copy, PartialEq, Eq, Debug)]
pub struct Secured {
    pub random: u32,
    pub led: bool,
}

impl Entry {
    /// The header: "its greeting is awaited, nothing of it is known, and it has no strays."
    pub fn added(password: &[u8]) -> Entry {
        Entry { password: password.to_vec(), greeted: None, known: Known::default(), strays: 0 }
    }

    /// "It is a step on a lent line from a named projector."
    pub fn step(&mut self, line: &[u8]) {
        let Some(greeted) = self.greeted else { return self.await_greeting(line) };
        let Some(command) = greeted.under_way.and_then(Command::read) else { return self.late(line) };
        match meaning(command, line) {
            Err(number) => self.no_reply(number, line),
            Ok(Meaning::Erra) => self.erra(),
            Ok(told) => {
                self.end_command();
                self.known.show(command, told);
            }
        }
    }

    /// "Until a greeting is accepted, any other line is malformed". The ERRA line is no greeting that could be
    /// accepted.
    fn await_greeting(&mut self, line: &[u8]) {
        let secured = match controller::greeting(line) {
            Some(Greeting::Plain) => None,
            Some(Greeting::Secured(random)) => Some(Secured { random, led: false }),
            Some(Greeting::Erra) if made(Mistake::EarlyErraNotCounted) => return,
            Some(Greeting::Erra) | None => return self.stray(),
        };
        self.greeted = Some(Greeted { secured, under_way: None });
    }

    /// "after it, a line with no command under way is late."
    fn late(&mut self, line: &[u8]) {
        if made(Mistake::LateErraForgets) && line == ERRA_LINE {
            self.known = Known::default();
        }
        if made(Mistake::LateGreetingTaken) && is_greeting(line) {
            return self.await_greeting(line);
        }
        if !made(Mistake::LateNotCounted) {
            self.stray();
        }
    }

    /// "A malformed or foreign line leaves the command under way". 10 and 12 are malformed, 11 is foreign.
    fn no_reply(&mut self, number: u32, line: &[u8]) {
        let foreign = number == OTHER_COMMAND;
        if foreign && made(Mistake::ForeignTaken) {
            return self.end_command();
        }
        if foreign && made(Mistake::ForeignShown) {
            self.known.show_foreign(line);
        }
        if made(Mistake::SecondGreetingTaken) && is_greeting(line) {
            return self.await_greeting(line);
        }
        let not_allowed = number == PARAMETER_NOT_ALLOWED;
        if !foreign && made(Mistake::MalformedEnds) || not_allowed && made(Mistake::NotAllowedEnds) {
            self.end_command();
        }
        if !(foreign && made(Mistake::ForeignNotCounted)) {
            self.stray();
        }
    }

    /// "ERRA ends it, makes that projector's readings unknown and awaits a new greeting."
    fn erra(&mut self) {
        if made(Mistake::ErraKeepsGreeting) {
            self.end_command();
        } else {
            self.greeted = None;
        }
        if !made(Mistake::ErraKeepsReadings) {
            self.known = Known::default();
        }
    }

    /// "any accepted reply ends it".
    fn end_command(&mut self) {
        if let Some(greeted) = &mut self.greeted {
            greeted.under_way = None;
        }
    }

    /// "a per-projector count of such lines, stopped at 65,535."
    fn stray(&mut self) {
        self.strays = match self.strays + 1 {
            past if past <= MOST_STRAYS || made(Mistake::StraysNotStopped) => past,
            _ if made(Mistake::StraysWrap) => 0,
            _ => MOST_STRAYS,
        };
    }

    /// The line of a command that is then under way. "The first command after a secured greeting is led by the digest,
    /// no later one is."
    pub fn command(&mut self, command: face::Command) -> Result<Vec<u8>, u32> {
        let greeted = self.greeted.as_mut().ok_or(NOT_READY)?;
        if greeted.under_way.is_some() && !made(Mistake::CommandOverAnother) {
            return Err(NOT_READY);
        }
        let asked = greeted.secured.filter(|secured| !secured.led || made(Mistake::DigestLeadsAll));
        let leads = asked.is_some() || greeted.secured.is_none() && made(Mistake::DigestLeadsOpen);
        let random = asked.map_or(0, |secured| secured.random);
        let line = controller::written(command, leads, random, &self.password).ok_or(OUT_OF_RANGE)?;
        if let Some(secured) = &mut greeted.secured {
            secured.led = true;
        }
        greeted.under_way = Some(if made(Mistake::UnusedFieldsCleared) { only_used(command) } else { command });
        Ok(line)
    }

    /// "the connection is gone: as ERRA, but readings stay."
    pub fn lost(&mut self) {
        if made(Mistake::LostKeepsGreeting) {
            self.end_command();
        } else {
            self.greeted = None;
        }
        if made(Mistake::LostForgets) {
            self.known = Known::default();
        }
        if made(Mistake::LostCounted) {
            self.stray();
        }
    }
}

fn is_greeting(line: &[u8]) -> bool {
    matches!(controller::greeting(line), Some(Greeting::Plain | Greeting::Secured(_)))
}

/// No rule clears what a code does not use; a mistake does.
fn only_used(command: face::Command) -> face::Command {
    let face::Command { code, first, second } = command;
    match code {
        1 | 15..=17 => face::Command { code, first, second: 0 },
        3 | 5 | 20 | 22 => face::Command { code, first, second },
        _ => face::Command { code, first: 0, second: 0 },
    }
}
