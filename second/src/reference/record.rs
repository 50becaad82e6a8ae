//! "A record is legal if .." (RULES, The legal record): the record that a host keeps, read into a projector and written
//! back.

use super::class::{Class, LONGEST_INPUT_NAME, Texts, Volume};
use super::rules::{Mistake, made};
use super::set_up::{LONGEST_NAME, MOST_INPUTS, MOST_LAMPS, SetUp, are_lamps, inputs_of, is_text};
use super::text::CR;
use super::{Connection, Line, Power, Projector};
use crate::face::{self, Flag, PLACES};

/// "collected bytes .. are at most 167 while awaiting and 135 while open".
pub const LONGEST_AWAITED: usize = 167;
pub const LONGEST_LINE: usize = 135;
/// "Awaiting or failed, it closes when its age reaches 30 seconds."
pub const CLOSING_AGE: u32 = 30;

impl Projector {
    /// The projector that a record stands for; nothing exactly if the record is not legal.
    pub fn read(record: &face::Device) -> Option<Projector> {
        let face::Device { settings, own, connections } = record;
        let set_up = read_set_up(settings)?;
        let lamps = part_in_use(&own.lamps, settings.lamp_count, MOST_LAMPS)?;
        let enabled = read_marks(own, lamps.len())?;
        let power = read_power(own, &set_up)?;
        let chosen_is_listed = own.chosen < set_up.inputs.len();
        let errors_are_digits = own.errors.iter().all(|&digit| digit <= 2);
        if !(are_lamps(&lamps) && chosen_is_listed && errors_are_digits) {
            return None;
        }
        if read_flag(own.frozen)? && set_up.class == Class::One && made(Mistake::FrozenInClass1Refused) {
            return None;
        }
        Some(Projector {
            set_up,
            power,
            chosen: own.chosen,
            video_muted: read_flag(own.video_muted)?,
            audio_muted: read_flag(own.audio_muted)?,
            fault: read_flag(own.fault)?,
            errors: own.errors,
            lamps,
            enabled,
            frozen: read_flag(own.frozen)?,
            speaker: Volume::new(own.speaker)?,
            microphone: Volume::new(own.microphone)?,
            connections: read_connections(connections)?,
        })
    }

    pub fn record(&self) -> face::Device {
        let mut record = face::Device::BLANK;
        write_set_up(&self.set_up, self.lamps.len(), &mut record.settings);
        let own = &mut record.own;
        (own.power, own.left) = match self.power {
            Power::Off => (0, 0),
            Power::On => (1, 0),
            Power::Cooling(left) => (2, left),
            Power::WarmUp(left) => (3, left),
        };
        own.chosen = self.chosen;
        own.video_muted = Flag::from(self.video_muted);
        own.audio_muted = Flag::from(self.audio_muted);
        own.fault = Flag::from(self.fault);
        own.errors = self.errors;
        own.lamps[..self.lamps.len()].copy_from_slice(&self.lamps);
        for (room, &mark) in own.enabled.iter_mut().zip(&self.enabled) {
            *room = Flag::from(mark);
        }
        own.frozen = Flag::from(self.frozen);
        own.speaker = self.speaker.level();
        own.microphone = self.microphone.level();
        for (connection, room) in self.connections.iter().zip(&mut record.connections) {
            write_connection(connection, room);
        }
        record
    }
}

/// The part of an array that its count says is in use. "unused room is zero".
pub(super) fn part_in_use<T: Copy + Default + PartialEq>(room: &[T], count: usize, most: usize) -> Option<Vec<T>> {
    if count > most {
        return None;
    }
    let (used, unused) = room.split_at(count);
    let clean = unused.iter().all(|item| *item == T::default()) || made(Mistake::UnusedRoomPassedOver);
    clean.then(|| used.to_vec())
}

pub(super) fn read_text(text: &face::Text) -> Option<Vec<u8>> {
    part_in_use(&text.bytes, text.len, LONGEST_NAME)
}

fn read_set_up(settings: &face::Settings) -> Option<SetUp> {
    let most = if made(Mistake::SixteenInARecord) { 16 } else { MOST_INPUTS };
    if settings.input_count > most {
        return None;
    }
    let characters = part_in_use(&settings.inputs, 2 * settings.input_count, 2 * MOST_INPUTS)?;
    let set_up = SetUp {
        name: read_text(&settings.name)?,
        maker: read_text(&settings.maker)?,
        model: read_text(&settings.model)?,
        other: read_text(&settings.other)?,
        password: read_text(&settings.password)?,
        inputs: inputs_of(&characters)?,
        warm: settings.warm,
        cool: settings.cool,
        class: read_class(settings)?,
    };
    if made(Mistake::RecordKeepsOldNames) && is_text(&set_up.name, LONGEST_NAME) {
        return SetUp { name: Vec::new(), ..set_up.clone() }.is_legal().then_some(set_up);
    }
    let kept = made(Mistake::RecordKeepsShort) && set_up.is_in_range();
    (kept || set_up.is_legal()).then_some(set_up)
}

/// The header: "1 or 2; what follows is all zero in Class 1"; names "one an input, in the inputs' order; all zero past
/// the inputs".
fn read_class(settings: &face::Settings) -> Option<Class> {
    let face::Settings { class_number, serial, version, names, input_count, .. } = settings;
    let nothing_in = |names: &[face::Name]| names.iter().all(|name| *name == face::Name::EMPTY);
    let class_number = match class_number {
        0 if made(Mistake::ClassZeroIsOne) => 1,
        3 if made(Mistake::ClassThreeIsTwo) => 2,
        number => *number,
    };
    match class_number {
        1 => {
            let no_texts = *version == face::Text::EMPTY
                && (*serial == face::Text::EMPTY || made(Mistake::SerialInClass1))
                && (nothing_in(names) || made(Mistake::NamesInClass1));
            no_texts.then_some(Class::One)
        }
        2 => {
            let (listed, past) = names.split_at_checked(*input_count)?;
            let texts = Texts {
                serial: read_text(serial)?,
                version: read_text(version)?,
                names: listed.iter().map(read_name).collect::<Option<_>>()?,
            };
            (nothing_in(past) || made(Mistake::NamesPastInputs)).then_some(Class::Two(texts))
        }
        _ => None,
    }
}

/// "A flag is 0 or 1": what it says; nothing of any other byte.
pub(super) fn read_flag(flag: Flag) -> Option<bool> {
    match flag.read() {
        None if made(Mistake::AnyByteIsAFlag) => Some(flag.is_raised()),
        None if made(Mistake::LowBitIsTheFlag) => Some(flag.0 & 1 == 1),
        said => said,
    }
}

fn read_name(name: &face::Name) -> Option<Vec<u8>> {
    part_in_use(&name.bytes, name.len, LONGEST_INPUT_NAME)
}

/// RULES, Lamps: "A legal record now includes the marks, at least one set if there are lamps"; one past the lamps is
/// not set.
fn read_marks(own: &face::Own, lamps: usize) -> Option<Vec<bool>> {
    let marks = match part_in_use(&own.enabled, lamps, MOST_LAMPS) {
        None if made(Mistake::MarksPastLamps) => own.enabled[..lamps].to_vec(),
        marks => marks?,
    };
    let marks: Vec<bool> = marks.into_iter().map(read_flag).collect::<Option<_>>()?;
    let needed = lamps > 0 || made(Mistake::NoLampsNeedAMark);
    let missing = needed && !marks.contains(&true) && !made(Mistake::NoMarkIsLegal);
    (!missing).then_some(marks)
}

/// "seconds left are 1 to W in warm-up, 1 to C in cooling, else 0".
fn read_power(own: &face::Own, set_up: &SetUp) -> Option<Power> {
    match (own.power, own.left) {
        (0, 0) => Some(Power::Off),
        (1, 0) => Some(Power::On),
        (2, left) if (1..=set_up.cool).contains(&left) => Some(Power::Cooling(left)),
        (3, left) if (1..=set_up.warm).contains(&left) => Some(Power::WarmUp(left)),
        _ => None,
    }
}

/// RULES, Places: "The record is legal if each place's part is."
fn read_connections(connections: &[face::Connection; PLACES]) -> Option<[Connection; PLACES]> {
    let tested = match () {
        _ if made(Mistake::OnlyPlaceZeroTested) => 1,
        _ if made(Mistake::LastPlaceNotTested) => PLACES - 1,
        _ => PLACES,
    };
    let mut read = [const { Connection::Closed }; PLACES];
    for (place, connection) in connections.iter().enumerate() {
        match read_connection(connection) {
            Some(connection) => read[place] = connection,
            None if place < tested => return None,
            None => (),
        }
    }
    Some(read)
}

/// "age is 0 to 29 while awaiting or failed, else 0; the random number is 0 while closed; collected bytes hold no CR,
/// are at most 167 while awaiting and 135 while open, none otherwise or under the overlong flag; the flag is set only
/// while awaiting or open".
fn read_connection(connection: &face::Connection) -> Option<Connection> {
    let face::Connection { phase, age, random, ref line } = *connection;
    let nothing_held = || read_line(line, 0).filter(|line| *line == Line::empty());
    match phase {
        0 if age == 0 && random == 0 => nothing_held().map(|_| Connection::Closed),
        1 if age < CLOSING_AGE => {
            read_line(line, LONGEST_AWAITED).map(|line| Connection::Awaiting { age, random, line })
        }
        2 if age == 0 => read_line(line, LONGEST_LINE).map(|line| Connection::Open { random, line }),
        3 if age < CLOSING_AGE => nothing_held().map(|_| Connection::Failed { age, random }),
        _ => None,
    }
}

fn read_line(line: &face::Line, longest: usize) -> Option<Line> {
    let bytes = part_in_use(&line.bytes, line.held, longest)?;
    match read_flag(line.overlong)? {
        true => bytes.is_empty().then_some(Line::Overlong),
        false => (!bytes.contains(&CR)).then_some(Line::Collected(bytes)),
    }
}

pub(super) fn write_text(bytes: &[u8], text: &mut face::Text) {
    text.len = bytes.len();
    text.bytes[..bytes.len()].copy_from_slice(bytes);
}

fn write_set_up(set_up: &SetUp, lamp_count: usize, settings: &mut face::Settings) {
    write_text(&set_up.name, &mut settings.name);
    write_text(&set_up.maker, &mut settings.maker);
    write_text(&set_up.model, &mut settings.model);
    write_text(&set_up.other, &mut settings.other);
    write_text(&set_up.password, &mut settings.password);
    settings.input_count = set_up.inputs.len();
    for (room, input) in settings.inputs.chunks_exact_mut(2).zip(&set_up.inputs) {
        room.copy_from_slice(&input.characters());
    }
    settings.lamp_count = lamp_count;
    settings.warm = set_up.warm;
    settings.cool = set_up.cool;
    settings.class_number = set_up.class.number();
    if let Class::Two(Texts { serial, version, names }) = &set_up.class {
        write_text(serial, &mut settings.serial);
        write_text(version, &mut settings.version);
        for (room, name) in settings.names.iter_mut().zip(names) {
            room.len = name.len();
            room.bytes[..name.len()].copy_from_slice(name);
        }
    }
}

fn write_connection(connection: &Connection, record: &mut face::Connection) {
    (record.phase, record.age, record.random) = match *connection {
        Connection::Closed => (0, 0, 0),
        Connection::Awaiting { age, random, .. } => (1, age, random),
        Connection::Open { random, .. } => (2, 0, random),
        Connection::Failed { age, random } => (3, age, random),
    };
    if let Connection::Awaiting { line, .. } | Connection::Open { line, .. } = connection {
        match line {
            Line::Overlong => record.line.overlong = Flag::YES,
            Line::Collected(bytes) => {
                record.line.held = bytes.len();
                record.line.bytes[..bytes.len()].copy_from_slice(bytes);
            }
        }
    }
}
