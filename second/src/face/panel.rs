//! The workroom panel (RULES, Panel): its records, field by field as `include/ceiling.h` has them, and the calls on it.

use super::{Command, Flag, Reading, Text};

/// One projector of a panel. `greeting` is 0 where none has come yet, 1 for `PJLINK 0`, 2 for `PJLINK 1`.
#[repr(C)]
#[derive(Clone, Copy, PartialEq, Eq, Debug)]
pub struct Entry {
    pub password: Text,
    pub greeting: u8,
    pub random: u32,
    pub led: Flag,
    pub under_way: Flag,
    pub command: Command,
    pub power_known: Flag,
    pub input_known: Flag,
    pub lamps_known: Flag,
    pub power: u8,
    pub input_type: u8,
    pub input_number: u8,
    pub lamp_count: usize,
    pub hours: [u32; 8],
    pub lit: [Flag; 8],
    pub strays: u32,
}

#[repr(C)]
#[derive(Clone, Copy, PartialEq, Eq, Debug)]
pub struct Panel {
    pub count: usize,
    pub entries: [Entry; 8],
}

#[repr(C)]
#[derive(Clone, Copy, PartialEq, Eq, Debug)]
pub struct PanelChanged {
    pub number: u32,
    pub panel: Panel,
}

#[repr(C)]
#[derive(Clone, Copy, PartialEq, Eq, Debug)]
pub struct PanelSent {
    pub number: u32,
    pub length: usize,
    pub panel: Panel,
}

/// What a call tells of a line that it hears: what it was, by `enum pj_heard_kind`, and what it says.
#[repr(C)]
#[derive(Clone, Copy, PartialEq, Eq, Debug)]
pub struct Heard {
    pub number: u32,
    pub kind: u8,
    pub reading: Reading,
}

/// A call on a panel, with the panel that it is lent.
#[derive(Clone, PartialEq, Eq, Debug)]
pub struct PanelCall {
    pub panel: Panel,
    pub act: PanelAct,
}

/// `None` is lent no panel by value.
#[derive(Clone, PartialEq, Eq, Debug)]
pub enum PanelAct {
    None,
    Add { password: Vec<u8> },
    Command { projector: usize, command: Command, lent: Vec<u8> },
    Line { projector: usize, line: Vec<u8> },
    Lost { projector: usize },
}

impl PanelAct {
    /// The projector that the call names.
    pub fn projector(&self) -> Option<usize> {
        match *self {
            PanelAct::None | PanelAct::Add { .. } => None,
            PanelAct::Command { projector, .. } | PanelAct::Line { projector, .. } => Some(projector),
            PanelAct::Lost { projector } => Some(projector),
        }
    }

    /// The same call with another projector named.
    pub fn on(mut self, other: usize) -> PanelAct {
        match &mut self {
            PanelAct::None | PanelAct::Add { .. } => (),
            PanelAct::Command { projector, .. } | PanelAct::Line { projector, .. } => *projector = other,
            PanelAct::Lost { projector } => *projector = other,
        }
        self
    }
}

impl Entry {
    /// "All zero past the count."
    pub const NONE: Entry = Entry {
        password: Text::EMPTY,
        greeting: 0,
        random: 0,
        led: Flag::NO,
        under_way: Flag::NO,
        command: Command { code: 0, first: 0, second: 0 },
        power_known: Flag::NO,
        input_known: Flag::NO,
        lamps_known: Flag::NO,
        power: 0,
        input_type: 0,
        input_number: 0,
        lamp_count: 0,
        hours: [0; 8],
        lit: [Flag::NO; 8],
        strays: 0,
    };
}

impl Panel {
    pub const NONE: Panel = Panel { count: 0, entries: [Entry::NONE; 8] };

    /// Of these projectors, eight at most.
    pub fn of(projectors: &[Entry]) -> Panel {
        let mut panel = Panel { count: projectors.len(), ..Panel::NONE };
        panel.entries[..projectors.len()].copy_from_slice(projectors);
        panel
    }
}
