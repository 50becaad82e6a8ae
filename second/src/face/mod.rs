//! The face that a host links, as `include/ceiling.h` declares it: its records, field by field in that order, and its
//! calls on the archive.
//!
//! A `bool` is 0 or 1 at this border; no other value is ever lent for one, since a host in C or Rust cannot have one. A
//! record has no `bool`: its flags are bytes ([`Flag`]), and any is lent.

mod call;
pub mod fields;
mod flag;
mod hand_on;
mod panel;
mod recorded;
mod service;
pub mod wire;

pub use call::{Act, Answer, Lent, Lent2};
pub use flag::Flag;
pub use hand_on::{InPlace, Side};
pub use panel::{Entry, Heard, Panel, PanelAct, PanelCall, PanelChanged, PanelSent};
pub use recorded::{Again, Kept, Log, Part, Said};
pub use service::{Compared, Day, Plan, Verdict};

#[cfg(board = "apart")]
mod apart;
#[cfg(board = "apart")]
pub use apart::Board;

#[cfg(board = "linked")]
pub mod days;
#[cfg(board = "linked")]
pub mod in_place;
#[cfg(board = "linked")]
pub mod linked;
#[cfg(board = "linked")]
pub use linked::Board;
#[cfg(board = "linked")]
pub mod logs;
#[cfg(board = "linked")]
pub mod setting_up;
#[cfg(board = "linked")]
pub mod swap;
#[cfg(board = "linked")]
pub mod workroom;

#[cfg(board = "missing")]
mod missing;
#[cfg(board = "missing")]
pub use missing::Board;

#[repr(C)]
#[derive(Clone, Copy, PartialEq, Eq, Debug)]
pub struct Text {
    pub len: usize,
    pub bytes: [u8; 64],
}

/// An input's name.
#[repr(C)]
#[derive(Clone, Copy, PartialEq, Eq, Debug)]
pub struct Name {
    pub len: usize,
    pub bytes: [u8; 128],
}

#[repr(C)]
#[derive(Clone, Copy, PartialEq, Eq, Debug)]
pub struct Settings {
    pub name: Text,
    pub maker: Text,
    pub model: Text,
    pub other: Text,
    pub password: Text,
    pub input_count: usize,
    pub inputs: [u8; 64],
    pub lamp_count: usize,
    pub warm: u32,
    pub cool: u32,
    pub class_number: u8,
    pub serial: Text,
    pub version: Text,
    pub names: [Name; 32],
}

#[repr(C)]
#[derive(Clone, Copy, PartialEq, Eq, Debug)]
pub struct Own {
    pub power: u8,
    pub left: u32,
    pub chosen: usize,
    pub video_muted: Flag,
    pub audio_muted: Flag,
    pub fault: Flag,
    pub errors: [u8; 6],
    pub lamps: [u32; 8],
    pub enabled: [Flag; 8],
    pub frozen: Flag,
    pub speaker: u8,
    pub microphone: u8,
}

#[repr(C)]
#[derive(Clone, Copy, PartialEq, Eq, Debug)]
pub struct Line {
    pub overlong: Flag,
    pub held: usize,
    pub bytes: [u8; 167],
}

#[repr(C)]
#[derive(Clone, Copy, PartialEq, Eq, Debug)]
pub struct Connection {
    pub phase: u8,
    pub age: u32,
    pub random: u32,
    pub line: Line,
}

/// RULES, Places: so many controllers are connected at once.
pub const PLACES: usize = 4;

#[repr(C)]
#[derive(Clone, Copy, PartialEq, Eq, Debug)]
pub struct Device {
    pub settings: Settings,
    pub own: Own,
    pub connections: [Connection; PLACES],
}

#[repr(C)]
#[derive(Clone, Copy, PartialEq, Eq, Debug)]
pub struct Changed {
    pub number: u32,
    pub device: Device,
}

#[repr(C)]
#[derive(Clone, Copy, PartialEq, Eq, Debug)]
pub struct Opened {
    pub number: u32,
    pub length: usize,
    pub place: usize,
    pub device: Device,
}

#[repr(C)]
#[derive(Clone, Copy, PartialEq, Eq, Debug)]
pub struct Received {
    pub number: u32,
    pub taken: usize,
    pub length: usize,
    pub device: Device,
}

/// What passing time gives that tells the places: bit p where it closed the connection at place p.
#[repr(C)]
#[derive(Clone, Copy, PartialEq, Eq, Debug)]
pub struct Passing {
    pub number: u32,
    pub closed: u32,
}

/// What receiving in place gives, whose record is where it was.
#[repr(C)]
#[derive(Clone, Copy, PartialEq, Eq, Debug)]
pub struct Receiving {
    pub number: u32,
    pub taken: usize,
    pub length: usize,
}

/// What opening in place gives.
#[repr(C)]
#[derive(Clone, Copy, PartialEq, Eq, Debug)]
pub struct Opening {
    pub number: u32,
    pub length: usize,
    pub place: usize,
}

#[repr(C)]
#[derive(Clone, Copy, PartialEq, Eq, Debug)]
pub struct Digest {
    pub bytes: [u8; 16],
}

/// The codes are those of `include/ceiling.h`: 0 POWR ?, 1 POWR set, 2 INPT ?, 3 INPT set, 4 AVMT ?, 5 AVMT set, 6
/// ERST, 7 LAMP, 8 INST, 9 NAME, 10 INF1, 11 INF2, 12 INFO, 13 CLSS; of Class 2, 14 FREZ ?, 15 FREZ set, 16 SVOL, 17
/// MVOL, 18 SNUM, 19 SVER, 20 INNM, 21 INPT ?, 22 INPT set, 23 INST.
#[repr(C)]
#[derive(Clone, Copy, PartialEq, Eq, Debug)]
pub struct Command {
    pub code: u8,
    pub first: u8,
    pub second: u8,
}

#[repr(C)]
#[derive(Clone, Copy, PartialEq, Eq, Debug)]
pub struct Written {
    pub number: u32,
    pub length: usize,
}

#[repr(C)]
#[derive(Clone, Copy, PartialEq, Eq, Debug)]
pub struct Greeting {
    pub number: u32,
    pub kind: u8,
    pub random: u32,
}

#[repr(C)]
#[derive(Clone, Copy, PartialEq, Eq, Debug)]
pub struct Reading {
    pub number: u32,
    pub kind: u8,
    pub first: u8,
    pub second: u8,
    pub count: usize,
    pub hours: [u32; 8],
    pub lit: [bool; 8],
    pub inputs: [u8; 64],
    pub text: [u8; 128],
}

impl Text {
    pub const EMPTY: Text = Text { len: 0, bytes: [0; 64] };
}

impl Name {
    pub const EMPTY: Name = Name { len: 0, bytes: [0; 128] };
}

impl Connection {
    pub const CLOSED: Connection =
        Connection { phase: 0, age: 0, random: 0, line: Line { overlong: Flag::NO, held: 0, bytes: [0; 167] } };
}

impl Device {
    /// RULES, The numbers a call gives: "the blank record, all zero (not legal, having no input)".
    pub const BLANK: Device = Device {
        settings: Settings {
            name: Text::EMPTY,
            maker: Text::EMPTY,
            model: Text::EMPTY,
            other: Text::EMPTY,
            password: Text::EMPTY,
            input_count: 0,
            inputs: [0; 64],
            lamp_count: 0,
            warm: 0,
            cool: 0,
            class_number: 0,
            serial: Text::EMPTY,
            version: Text::EMPTY,
            names: [Name::EMPTY; 32],
        },
        own: Own {
            power: 0,
            left: 0,
            chosen: 0,
            video_muted: Flag::NO,
            audio_muted: Flag::NO,
            fault: Flag::NO,
            errors: [0; 6],
            lamps: [0; 8],
            enabled: [Flag::NO; 8],
            frozen: Flag::NO,
            speaker: 0,
            microphone: 0,
        },
        connections: [Connection::CLOSED; PLACES],
    };
}

impl Reading {
    /// A refusal: no meaning, and "what a kind does not use is zero".
    pub const fn refused(number: u32) -> Reading {
        Reading {
            number,
            kind: 0,
            first: 0,
            second: 0,
            count: 0,
            hours: [0; 8],
            lit: [false; 8],
            inputs: [0; 64],
            text: [0; 128],
        }
    }
}
