//! Records of both classes, of Class 2 more often: legal ones in every state, and damaged ones, field by field.

use super::{lines, setups};
use crate::compare::random::Random;
use crate::compare::records::{self, count, set_text, text};
use crate::compare::setups::text as legal_text;
use crate::face::{Connection, Device, Flag, Name, PLACES};

/// Legal by the rules, whatever mistake is made.
pub fn legal(random: &mut Random) -> Device {
    let mut device = records::legal(random);
    if !random.one_in(4) {
        into_class_2(random, &mut device);
    }
    device.own.frozen = Flag::from(random.one_in(2));
    (device.own.speaker, device.own.microphone) = (level(random), level(random));
    for place in 0..PLACES {
        if device.connections[place].line.held > 0 && random.one_in(2) {
            collect(random, &mut device, place);
        }
    }
    device
}

fn level(random: &mut Random) -> u8 {
    let any = random.below(21) as u8;
    random.pick(&[0, 1, 10, 19, 20, any])
}

fn into_class_2(random: &mut Random, device: &mut Device) {
    let inputs = setups::inputs(random);
    let names = setups::names(random, inputs.len() / 2);
    set_inputs(device, &inputs, &names);
    device.own.chosen = random.below(names.len());
    device.settings.class_number = 2;
    set_text(&mut device.settings.serial, &legal_text(random, 32));
    set_text(&mut device.settings.version, &legal_text(random, 32));
}

/// These inputs, 32 at most, and as many names.
pub fn set_inputs(device: &mut Device, inputs: &[u8], names: &[Vec<u8>]) {
    let settings = &mut device.settings;
    settings.input_count = inputs.len() / 2;
    settings.inputs = [0; 64];
    settings.inputs[..inputs.len()].copy_from_slice(inputs);
    settings.names = [Name::EMPTY; 32];
    settings.names.iter_mut().zip(names).for_each(|(name, bytes)| set_name(name, bytes));
}

/// These bytes, or the first 128 of them.
pub fn set_name(name: &mut Name, bytes: &[u8]) {
    *name = Name::EMPTY;
    name.len = bytes.len().min(128);
    name.bytes[..name.len].copy_from_slice(&bytes[..name.len]);
}

/// The start of a line of either class.
fn collect(random: &mut Random, device: &mut Device, place: usize) {
    let most = if device.connections[place].phase == 1 { 167 } else { 135 };
    let mut bytes = lines::line(random, device, place);
    bytes.retain(|&byte| byte != b'\r');
    bytes.truncate(random.below(bytes.len() + 1).min(most));
    let line = &mut device.connections[place].line;
    *line = Connection::CLOSED.line;
    line.held = bytes.len();
    line.bytes[..bytes.len()].copy_from_slice(&bytes);
}

/// A legal record that is on more often than not, and a place on whose connection a whole line may come next.
pub fn between_lines(random: &mut Random) -> (Device, usize) {
    let mut device = legal(random);
    if !random.one_in(3) {
        (device.own.power, device.own.left) = (1, 0);
    }
    let place = random.below(PLACES);
    let connection = &mut device.connections[place];
    *connection = Connection::CLOSED;
    connection.phase = if device.settings.password.len > 0 && random.one_in(4) { 1 } else { 2 };
    connection.random = random.word();
    (device, place)
}

/// A legal record with one to three fields replaced; a few are legal still.
pub fn damaged(random: &mut Random) -> Device {
    let mut device = legal(random);
    for _ in 0..random.pick(&[1, 1, 1, 2, 3]) {
        if random.one_in(3) {
            let field = random.below(records::fields());
            records::damage(random, &mut device, field);
        } else {
            let field = random.below(FIELDS);
            damage(random, &mut device, field);
        }
    }
    device
}

/// How many fields `damage` knows.
pub const FIELDS: usize = 15;

/// Replaces one field, of those that Class 2 has or looks at.
pub fn damage(random: &mut Random, device: &mut Device, field: usize) {
    let settings = &mut device.settings;
    let listed = settings.input_count.min(32);
    let any = random.below(32);
    let in_use = random.below(listed.max(1));
    let place = random.pick(&[any, in_use, listed.min(31)]);
    match field {
        0 => settings.class_number = random.pick(&[0, 1, 1, 2, 2, 3, 50, 255]),
        1 => text(random, &mut settings.serial),
        2 => text(random, &mut settings.version),
        3 => settings.names[place].len = count(random, settings.names[place].len, 128),
        4 => settings.names[place].bytes[random.below(128)] = random.pick(&[0x00, 0x0D, 0x1F, 0x20, b'A', 0xFF]),
        5 => {
            let first = random.below(settings.names[place].len.clamp(1, 128));
            settings.names[place].bytes[first] = random.pick(&[0x00, 0x0D, 0x1F, 0x20, b'A', 0xFF]);
        }
        6 => set_name(&mut settings.names[place], &random.pick(&[*b"ERR0", *b"ERR1", *b"ERR2", *b"ERR4", *b"ERR5"])),
        7 => settings.names.swap(place, in_use),
        8 => settings.input_count = count(random, settings.input_count, 32),
        9 => {
            let character = 2 * in_use + random.below(2);
            settings.inputs[character] = random.pick(b"\x000156789:@AZ[`az");
        }
        10 => settings.inputs.copy_within(0..2, 2 * place),
        11 if listed > 1 => {
            // an input goes, and its name stays
            settings.input_count = listed - 1;
            settings.inputs[2 * listed - 2..].fill(0);
            device.own.chosen = device.own.chosen.min(listed - 2);
        }
        12 => device.own.frozen = !device.own.frozen,
        13 => device.own.speaker = random.pick(&[0, 1, 20, 21, 22, 100, 128, 255]),
        _ => device.own.microphone = random.pick(&[0, 1, 20, 21, 22, 100, 128, 255]),
    }
}
