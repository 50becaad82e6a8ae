//! The rules, written plainly. Every rule has beside it the words in which it was asked for, and the section of
//! docs/RULES.md that has it as it stands.
//!
//! `calls` has the calls that a host makes, with the numbers they give, `places` those of a controller's place; `swap`
//! (RULES, Stored form), `marks` (Lamps), `recorded` (History of a board), `service` (Service), `days` (Cutting day) and
//! `panel` (Panel) have others;
//! the other files have what they mean, `utf8` what is said of names, `form` the stored bytes, `class` and `class_2`
//! Class 2. `rules` holds the deliberate mistakes that `second wrong` switches on, one at a time; none is on otherwise;
//! those in the calls in place alone are made in `in_place`.

pub mod calls;
pub mod class;
pub mod class_2;
#[cfg(test)]
mod classed;
pub mod clock;
pub mod commands;
pub mod connection;
pub mod controller;
pub mod days;
pub mod flatten;
pub mod form;
#[cfg(test)]
mod four;
pub mod in_place;
#[cfg(test)]
mod marked;
pub mod marks;
pub mod md5;
pub mod panel;
pub mod places;
pub mod record;
pub mod recorded;
pub mod replies;
pub mod rules;
pub mod service;
pub mod sessions;
pub mod set_up;
#[cfg(test)]
mod settled;
#[cfg(test)]
mod short;
pub mod side;
#[cfg(test)]
mod stored;
pub mod swap;
pub mod text;
pub mod utf8;

use crate::face::PLACES;
use class::Volume;
use set_up::SetUp;

/// A projector in a legal state. What a record can say and the rules forbid has no form here.
#[derive(Clone, PartialEq, Eq, Debug)]
pub struct Projector {
    pub set_up: SetUp,
    pub power: Power,
    /// The place of the chosen input in the set-up's list.
    pub chosen: usize,
    pub video_muted: bool,
    pub audio_muted: bool,
    pub fault: bool,
    /// RULES, Commands: "six digits 0 to 2: fan, lamp, temperature, cover, filter, other".
    pub errors: [u8; 6],
    /// Stored seconds, lamp by lamp.
    pub lamps: Vec<u32>,
    /// RULES, Lamps: "Each lamp gets an enabled mark". As many as there are lamps.
    pub enabled: Vec<bool>,
    /// RULES, Class 2: "freeze, the volume steps".
    pub frozen: bool,
    pub speaker: Volume,
    pub microphone: Volume,
    /// Place by place.
    pub connections: [Connection; PLACES],
}

/// Warm-up and cooling carry the seconds left.
#[derive(Clone, Copy, PartialEq, Eq, Debug)]
pub enum Power {
    Off,
    On,
    Cooling(u32),
    WarmUp(u32),
}

/// RULES, The legal record: "A closed connection has age 0, random number 0, no collected bytes and no overlong flag."
#[derive(Clone, PartialEq, Eq, Debug)]
pub enum Connection {
    Closed,
    Awaiting { age: u32, random: u32, line: Line },
    Open { random: u32, line: Line },
    Failed { age: u32, random: u32 },
}

/// What is collected of a line that has not ended yet.
#[derive(Clone, PartialEq, Eq, Debug)]
pub enum Line {
    Collected(Vec<u8>),
    Overlong,
}

impl Line {
    pub fn empty() -> Line {
        Line::Collected(Vec::new())
    }
}
