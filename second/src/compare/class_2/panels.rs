//! Panels whose projectors are of either class, with commands and replies of both.

use super::{records, replies};
use crate::compare::panel_records;
use crate::compare::panels::Making;
use crate::compare::random::Random;
use crate::face::Panel;
use crate::reference::controller::Command;
use crate::reference::rules::unmistaken;

pub const MAKING: Making =
    Making { device: records::legal, command: replies::command, reply_line: replies::reply_line };

/// Legal by the rules, whatever mistake is made: an input of either class, a command of either.
pub fn legal(random: &mut Random) -> Panel {
    let mut panel = panel_records::legal(random);
    for entry in &mut panel.entries[..panel.count] {
        if entry.input_known.is_raised() {
            (entry.input_type, entry.input_number) = (random.from_to(1, 6) as u8, random.from_to(1, 35) as u8);
        }
        let command = replies::command(random);
        if entry.under_way.is_raised() && unmistaken(|| Command::read(command)).is_some() {
            entry.command = command;
        }
    }
    panel
}

/// With one entry's input, or its command, replaced by what may be none.
pub fn damaged(random: &mut Random) -> Panel {
    let mut panel = legal(random);
    let place = random.below(panel.count.max(1));
    let entry = &mut panel.entries[place];
    match random.below(4) {
        0 => entry.input_type = random.pick(&[0, 1, 6, 7, 255]),
        1 => entry.input_number = random.pick(&[0, 1, 9, 10, 35, 36, 255]),
        2 => entry.command = replies::command(random),
        _ => return panel_records::damaged(random),
    }
    panel
}
