//! RULES, Controller: commands written, greetings read. Replies are read in `replies`.

use super::class_2::Body2;
use super::commands::Body;
use super::connection::{ERRA_LINE, leading_digest};
use super::rules::{Mistake, knows_class_2, made};
use super::set_up::{is_password, is_short};
use super::text::{CR, Input, hex_number};
use crate::face;

/// What a controller may ask.
#[derive(Clone, Copy, PartialEq, Eq, Debug)]
pub enum Command {
    SetPower(bool),
    SetInput(Input),
    SetMute {
        which: u8,
        on: bool,
    },
    Query(Body),
    /// RULES, Class 2: under `%2`.
    Class2(Command2),
}

#[derive(Clone, Copy, PartialEq, Eq, Debug)]
pub enum Command2 {
    SetInput(Input),
    SetFreeze(bool),
    StepSpeaker {
        up: bool,
    },
    StepMicrophone {
        up: bool,
    },
    /// `?` and the input.
    AskName(Input),
    /// INPT, INST, FREZ, SNUM or SVER with `?`.
    Query(Body2),
}

impl Command {
    /// The command that a host's three numbers stand for. What they do not use is passed over; what is no command is
    /// none.
    pub fn read(command: face::Command) -> Option<Command> {
        let face::Command { code, first, second } = command;
        let query = match code {
            0 => Body::Powr,
            1 => return (first <= 1).then_some(Command::SetPower(first == 1)),
            2 => Body::Inpt,
            3 => {
                let is_new = |input: &Input| !input.is_of_class_1() && made(Mistake::WriterRefusesNewInputs);
                return Input::new(first, second).filter(|input| !is_new(input)).map(Command::SetInput);
            }
            4 => Body::Avmt,
            5 => {
                let listed = (1..=3).contains(&first) && second <= 1;
                return listed.then_some(Command::SetMute { which: first, on: second == 1 });
            }
            6 => Body::Erst,
            7 => Body::Lamp,
            8 => Body::Inst,
            9 => Body::Name,
            10 => Body::Inf1,
            11 => Body::Inf2,
            12 => Body::Info,
            13 => Body::Clss,
            _ if knows_class_2() => return Command2::read(command).map(Command::Class2),
            _ => return None,
        };
        Some(Command::Query(query))
    }

    /// `1` or `2`.
    pub fn class_digit(self) -> u8 {
        match self {
            Command::Class2(_) => b'2',
            _ => b'1',
        }
    }

    pub fn body(self) -> &'static [u8; 4] {
        match self {
            Command::SetPower(_) => Body::Powr.bytes(),
            Command::SetInput(_) => Body::Inpt.bytes(),
            Command::SetMute { .. } => Body::Avmt.bytes(),
            Command::Query(body) => body.bytes(),
            Command::Class2(command) => command.body().bytes(),
        }
    }

    fn parameter(self) -> Vec<u8> {
        match self {
            Command::SetPower(on) => vec![b'0' + u8::from(on)],
            Command::SetInput(input) => input.characters().to_vec(),
            Command::SetMute { which, on } => vec![b'0' + which, b'0' + u8::from(on)],
            Command::Query(_) => b"?".to_vec(),
            Command::Class2(command) => command.parameter(),
        }
    }
}

impl Command2 {
    fn read(command: face::Command) -> Option<Command2> {
        let face::Command { code, first, second } = command;
        let input = Input::new(first, second);
        let one_or_none = (first <= 1).then_some(first == 1);
        match code {
            14 => Some(Command2::Query(Body2::Frez)),
            15 => one_or_none.map(Command2::SetFreeze),
            16 => one_or_none.map(|up| Command2::StepSpeaker { up }),
            17 => one_or_none.map(|up| Command2::StepMicrophone { up }),
            18 => Some(Command2::Query(Body2::Snum)),
            19 => Some(Command2::Query(Body2::Sver)),
            20 => input.map(Command2::AskName),
            21 => Some(Command2::Query(Body2::Inpt)),
            22 => input.map(Command2::SetInput),
            23 => Some(Command2::Query(Body2::Inst)),
            _ => None,
        }
    }

    fn body(self) -> Body2 {
        match self {
            Command2::SetInput(_) => Body2::Inpt,
            Command2::SetFreeze(_) => Body2::Frez,
            Command2::StepSpeaker { .. } => Body2::Svol,
            Command2::StepMicrophone { .. } => Body2::Mvol,
            Command2::AskName(_) => Body2::Innm,
            Command2::Query(body) => body,
        }
    }

    fn parameter(self) -> Vec<u8> {
        match self {
            Command2::SetInput(input) => input.characters().to_vec(),
            Command2::SetFreeze(on) => vec![b'0' + u8::from(on)],
            Command2::StepSpeaker { up } | Command2::StepMicrophone { up } => vec![b'0' + u8::from(up)],
            Command2::AskName(input) if made(Mistake::WriterNameWithoutMark) => input.characters().to_vec(),
            Command2::AskName(input) => [b"?", &input.characters()[..]].concat(),
            Command2::Query(_) => b"?".to_vec(),
        }
    }
}

/// "The writer gives the command, preceded on request by the digest of a lent random number and password; an illegal
/// input or password is 3." A password that is not used is not looked at. RULES, Passwords: "The controller's writer
/// still takes 1 to 7."
pub fn written(command: face::Command, secured: bool, random: u32, password: &[u8]) -> Option<Vec<u8>> {
    let command = Command::read(command)?;
    let password_matters = secured || made(Mistake::PasswordAlwaysTested);
    let short = is_short(password) && made(Mistake::WriterRefusesShort);
    if password_matters && (short || !is_password(password)) {
        return None;
    }
    let mut line = Vec::new();
    if secured {
        line.extend_from_slice(&leading_digest(random, password));
    }
    line.extend_from_slice(&[b'%', if made(Mistake::WriterAlwaysOne) { b'1' } else { command.class_digit() }]);
    line.extend_from_slice(command.body());
    line.push(b' ');
    line.extend_from_slice(&command.parameter());
    line.push(CR);
    Some(line)
}

#[derive(Clone, Copy, PartialEq, Eq, Debug)]
pub enum Greeting {
    Plain,
    Secured(u32),
    Erra,
}

/// "The greeting reader knows the two greetings and the ERRA line, each with its CR and nothing more."
pub fn greeting(line: &[u8]) -> Option<Greeting> {
    if line == b"PJLINK 0\r" {
        return Some(Greeting::Plain);
    }
    if line == ERRA_LINE {
        return Some(Greeting::Erra);
    }
    let digits = line.strip_prefix(b"PJLINK 1 ")?.strip_suffix(b"\r")?;
    hex_number(digits).map(Greeting::Secured)
}
