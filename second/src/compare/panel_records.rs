//! Records of panels (RULES, Panel): legal ones in every state, and damaged ones, field by field.

use super::random::Random;
use super::records::{code, count, flag, set_text, text};
use super::{panels, replies};
use crate::face::{Command, Entry, Flag, Panel};
use crate::reference::controller;
use crate::reference::rules::unmistaken;

/// Legal by the rules, whatever mistake is made.
pub fn legal(random: &mut Random) -> Panel {
    let mut panel = Panel { count: random.pick(&[0, 1, 1, 2, 3, 7, 8]), ..Panel::NONE };
    for place in 0..panel.count {
        panel.entries[place] = entry(random);
    }
    panel
}

fn entry(random: &mut Random) -> Entry {
    let mut entry = Entry { greeting: random.pick(&[0, 1, 1, 2, 2]), strays: strays(random), ..Entry::NONE };
    let length = random.length_to(32);
    set_text(&mut entry.password, &random.letters_or_digits(length));
    if entry.greeting == 2 {
        entry.random = random.word();
        entry.led = Flag::from(random.one_in(2));
    }
    if entry.greeting > 0 && random.one_in(2) {
        entry.under_way = Flag::YES;
        entry.command = command(random);
    }
    read(random, &mut entry);
    entry
}

/// Readings, each known or not.
fn read(random: &mut Random, entry: &mut Entry) {
    if random.one_in(2) {
        (entry.power_known, entry.power) = (Flag::YES, random.below(4) as u8);
    }
    if random.one_in(2) {
        entry.input_known = Flag::YES;
        (entry.input_type, entry.input_number) = (random.from_to(1, 5) as u8, random.from_to(1, 9) as u8);
    }
    if random.one_in(2) {
        entry.lamps_known = Flag::YES;
        entry.lamp_count = random.pick(&[1, 1, 2, 3, 7, 8]);
        for place in 0..entry.lamp_count {
            let any = random.below(100_000) as u32;
            entry.hours[place] = random.pick(&[0, 1, any, any, 99_999]);
            entry.lit[place] = Flag::from(random.one_in(2));
        }
    }
}

/// None, few, around what eight bits count, around the most.
pub fn strays(random: &mut Random) -> u32 {
    let any = random.below(65_536) as u32;
    random.pick(&[0, 0, 1, 255, 256, any, 32_767, 65_533, 65_534, 65_534, 65_535, 65_535])
}

/// What is a command, with anything in the fields that it does not use.
fn command(random: &mut Random) -> Command {
    loop {
        let command = replies::command(random);
        if unmistaken(|| controller::Command::read(command)).is_some() {
            return command;
        }
    }
}

/// A legal panel with one to three fields replaced; a few are legal still.
pub fn damaged(random: &mut Random) -> Panel {
    let mut panel = legal(random);
    for _ in 0..random.pick(&[1, 1, 1, 2, 3]) {
        let place = random.below(8);
        match random.below(FIELDS + 2) {
            0 => panel.count = count(random, panel.count, 8),
            1 => panel.entries.swap(place, (place + 1) % 8),
            field => damage(random, &mut panel.entries[place], field - 2),
        }
    }
    panel
}

/// How many fields `damage` knows.
const FIELDS: usize = 17;

/// Replaces one field, of those that an entry has, in their order.
fn damage(random: &mut Random, entry: &mut Entry, field: usize) {
    match field {
        0 if random.one_in(2) => set_text(&mut entry.password, &panels::any_password(random)),
        0 => text(random, &mut entry.password),
        1 => entry.greeting = code(random),
        2 => entry.random = random.pick(&[0, 1, u32::MAX]),
        3 => entry.led = flag(random, entry.led),
        4 => entry.under_way = flag(random, entry.under_way),
        5 => entry.command = replies::command(random),
        6 => {
            *[&mut entry.command.code, &mut entry.command.first, &mut entry.command.second][random.below(3)] =
                code(random)
        }
        7 => entry.power_known = flag(random, entry.power_known),
        8 => entry.input_known = flag(random, entry.input_known),
        9 => entry.lamps_known = flag(random, entry.lamps_known),
        10 => entry.power = code(random),
        11 => entry.input_type = random.pick(&[0, 1, 5, 6, 255]),
        12 => entry.input_number = random.pick(&[0, 1, 9, 10, 255]),
        13 => entry.lamp_count = count(random, entry.lamp_count, 8),
        14 => entry.hours[random.below(8)] = random.pick(&[0, 1, 99_999, 100_000, u32::MAX]),
        15 => {
            let place = random.below(8);
            entry.lit[place] = flag(random, entry.lit[place]);
        }
        _ => entry.strays = random.pick(&[0, 1, 65_534, 65_535, 65_536, 65_537, u32::MAX]),
    }
}
