//! A call of the face with what it is lent, and all that it gives: the same two for both programs.

use super::{
    Changed, Command, Compared, Day, Device, Digest, Greeting, Heard, Kept, Log, Opened, PanelCall, PanelChanged,
    PanelSent, Part, Plan, Reading, Received, Said, Verdict, Written,
};

/// A call, all but the record that some of them are lent. `lent` is the reply memory with what it holds beforehand.
#[derive(Clone, PartialEq, Eq, Debug)]
pub enum Act {
    SetUp(Lent),
    SetUp2(Box<Lent2>),
    WhichSetting(Lent),
    WhichSetting2(Box<Lent2>),
    Open {
        random: u32,
        lent: Vec<u8>,
    },
    Close {
        place: usize,
    },
    Receive {
        place: usize,
        bytes: Vec<u8>,
        lent: Vec<u8>,
    },
    /// Not one call: a stream, handed on until all is taken. The board is handed it in these cuts, the reference
    /// program whole: RULES, Connection, says that the reply bytes and the end state are the same.
    HandOn {
        place: usize,
        bytes: Vec<u8>,
        cuts: Vec<usize>,
    },
    /// Not one call: parts of streams, each at its place, in turn. The board is handed them as they come, the reference
    /// program each line whole, when its CR comes, and last what is left of each: RULES, Places, says that "one place's
    /// bytes never touch another's connection".
    Interleave {
        parts: Vec<(usize, Vec<u8>)>,
    },
    Pass {
        seconds: u32,
    },
    /// As `Pass`. The cases from before every call was made in place too have the two apart.
    PassInPlace {
        seconds: u32,
    },
    SetFault {
        mark: bool,
    },
    SetErrors {
        digits: Vec<u8>,
    },
    SetMark {
        lamp: usize,
        enabled: bool,
    },
    Legal,
    Store {
        lent: Vec<u8>,
    },
    Load {
        bytes: Vec<u8>,
    },
    Digest {
        message: Vec<u8>,
    },
    Write {
        command: Command,
        secured: bool,
        random: u32,
        password: Vec<u8>,
        lent: Vec<u8>,
    },
    ReadGreeting {
        line: Vec<u8>,
    },
    ReadReply {
        command: Command,
        line: Vec<u8>,
    },
    Panel(Box<PanelCall>),
    CompareLamps {
        earlier: Vec<u32>,
        later: Vec<u32>,
        lent: Vec<i64>,
    },
    CheckDay {
        day: Day,
        rigs: Vec<u8>,
    },
    PlanDay {
        day: Day,
        lent: Vec<u8>,
    },
    LogBegun {
        form: Vec<u8>,
    },
    Record {
        log: Log,
        said: Said,
        lent: Vec<u8>,
    },
    Play {
        log: Log,
        line: Vec<u8>,
        lent: Vec<u8>,
    },
    /// Not one call: a host that records what it does, from the record of this stored form on, or from the one that it
    /// is lent, and then plays its log again.
    Keep {
        form: Option<Vec<u8>>,
        parts: Vec<Part>,
    },
}

/// What a set-up is lent, and the call that tells which of it is out of range.
#[derive(Clone, PartialEq, Eq, Debug, Default)]
pub struct Lent {
    pub name: Vec<u8>,
    pub maker: Vec<u8>,
    pub model: Vec<u8>,
    pub other: Vec<u8>,
    pub password: Vec<u8>,
    pub inputs: Vec<u8>,
    pub lamps: Vec<u32>,
    pub warm: u32,
    pub cool: u32,
}

/// What a set-up of Class 2 is lent, and the call that tells of it: the bytes of all names one after the other, and the
/// length of each.
#[derive(Clone, PartialEq, Eq, Debug, Default)]
pub struct Lent2 {
    pub lent: Lent,
    pub serial: Vec<u8>,
    pub version: Vec<u8>,
    pub names: Vec<u8>,
    pub name_lengths: Vec<usize>,
}

/// What a call gives; where it was lent memory, the whole of that memory afterwards.
#[derive(Clone, PartialEq, Eq, Debug)]
pub enum Answer {
    Changed(Changed),
    /// Of passing time that tells the places which it closed.
    Passed(Changed, u32),
    Setting(u32),
    Opened(Opened, Vec<u8>),
    Received(Received, Vec<u8>),
    /// The last number and record, and all reply bytes.
    HandedOn(Changed, Vec<u8>),
    /// The last record; place by place, the last number and all reply bytes.
    Interleaved(Box<Device>, Vec<(u32, Vec<u8>)>),
    Legal(bool),
    Digest(Digest),
    Written(Written, Vec<u8>),
    Greeting(Greeting),
    Reading(Reading),
    PanelChanged(Box<PanelChanged>),
    PanelSent(Box<PanelSent>, Vec<u8>),
    /// Of a line, by the call that tells what it was: the panel after it, and what it tells.
    PanelHeard(Box<PanelChanged>, Box<Heard>),
    Compared(Compared, Vec<i64>),
    Verdict(Verdict),
    Plan(Plan, Vec<u8>),
    Begun(Log),
    Recorded(Log, Written, Vec<u8>),
    Played(Box<Device>, Log, Written, Vec<u8>),
    Kept(Box<Kept>),
    /// Of no call by the rules: one that only reads the record that it is lent left this one there.
    Touched(Box<Device>),
}

impl Act {
    /// Whether the call has a form that changes the record where it lies, or reads it there: each call of a projector
    /// or of a panel, and what is made of these.
    pub fn has_in_place(&self) -> bool {
        match self {
            Act::SetUp(_) | Act::SetUp2(_) | Act::Load { .. } => true,
            Act::Open { .. } | Act::Close { .. } | Act::Receive { .. } => true,
            Act::HandOn { .. } | Act::Interleave { .. } => true,
            Act::Pass { .. } | Act::PassInPlace { .. } => true,
            Act::SetFault { .. } | Act::SetErrors { .. } | Act::SetMark { .. } => true,
            Act::Legal | Act::Store { .. } | Act::Panel(_) => true,
            Act::WhichSetting(_) | Act::WhichSetting2(_) | Act::Digest { .. } => false,
            Act::Write { .. } | Act::ReadGreeting { .. } | Act::ReadReply { .. } => false,
            Act::CompareLamps { .. } | Act::CheckDay { .. } | Act::PlanDay { .. } => false,
            Act::LogBegun { .. } | Act::Record { .. } | Act::Play { .. } | Act::Keep { .. } => false,
        }
    }

    /// Whether the call fills a record, whatever lies there.
    pub fn fills(&self) -> bool {
        matches!(self, Act::SetUp(_) | Act::SetUp2(_) | Act::Load { .. })
    }
}

impl Answer {
    /// The record that the call returns, or leaves where it lies, if it is lent one to change.
    pub fn device(&self) -> Option<&Device> {
        match self {
            Answer::Changed(changed) => Some(&changed.device),
            Answer::Opened(opened, _) => Some(&opened.device),
            Answer::Received(received, _) => Some(&received.device),
            Answer::HandedOn(changed, _) => Some(&changed.device),
            Answer::Interleaved(device, _) | Answer::Played(device, ..) => Some(device),
            Answer::Kept(kept) => Some(&kept.device),
            _ => None,
        }
    }
}
