//! Records: legal ones in every state, and damaged ones, field by field.

use super::random::Random;
use super::{lines, names, setups};
use crate::face::{Connection, Device, Flag, PLACES, Text};
use crate::reference::calls;
use crate::reference::rules::{knows_class_2, unmistaken};

/// Legal by the rules, whatever mistake is made.
pub fn legal(random: &mut Random) -> Device {
    let lent = setups::legal(random);
    let mut device = unmistaken(|| calls::set_up(&lent)).device;
    let own = &mut device.own;
    own.power = random.pick(&[0, 1, 1, 2, 3]);
    own.left = match own.power {
        2 => seconds_left(random, device.settings.cool),
        3 => seconds_left(random, device.settings.warm),
        _ => 0,
    };
    own.chosen = random.below(device.settings.input_count);
    own.video_muted = Flag::from(random.one_in(2));
    own.audio_muted = Flag::from(random.one_in(2));
    own.fault = Flag::from(random.one_in(8));
    own.errors = std::array::from_fn(|_| random.below(3) as u8);
    if device.settings.lamp_count > 0 && random.one_in(2) {
        let kept = random.below(device.settings.lamp_count);
        let marks = &mut own.enabled[..device.settings.lamp_count];
        marks.iter_mut().enumerate().for_each(|(lamp, mark)| *mark = Flag::from(lamp == kept || random.one_in(2)));
    }
    let alone = random.below(PLACES);
    let temper = random.below(4);
    for place in 0..PLACES {
        match temper {
            0 if place != alone => (),
            1 => connect_as(random, &mut device, place, &[1, 2, 2, 3]),
            _ => connect_as(random, &mut device, place, &[0, 1, 1, 2, 2, 2, 3]),
        }
    }
    device
}

/// A legal record, and a place on whose connection a whole line may come next.
pub fn between_lines(random: &mut Random) -> (Device, usize) {
    let mut device = legal(random);
    let place = random.below(PLACES);
    let connection = &mut device.connections[place];
    *connection = Connection::CLOSED;
    connection.phase = if device.settings.password.len > 0 && random.one_in(2) { 1 } else { 2 };
    connection.random = random.word();
    (device, place)
}

/// A legal record that is on, and a place at which commands are served.
pub fn open_between_lines(random: &mut Random) -> (Device, usize) {
    let (mut device, place) = between_lines(random);
    device.connections[place].phase = 2;
    (device, place)
}

fn seconds_left(random: &mut Random, most: u32) -> u32 {
    let any = random.from_to(1, most as usize) as u32;
    random.pick(&[1, most, any])
}

/// A legal connection at a place, in one of these phases.
pub fn connect_as(random: &mut Random, device: &mut Device, place: usize, phases: &[u8]) {
    let phase = random.pick(phases);
    let connection = &mut device.connections[place];
    *connection = Connection::CLOSED;
    connection.phase = phase;
    if phase == 1 || phase == 3 {
        connection.age = random.pick(&[0, 1, 15, 28, 29]);
    }
    if phase != 0 {
        connection.random = random.word();
    }
    if phase == 1 || phase == 2 {
        collect(random, device, place);
    }
}

/// The start of a line, or anything, up to the limit; or the overlong flag.
fn collect(random: &mut Random, device: &mut Device, place: usize) {
    let most = if device.connections[place].phase == 1 { 167 } else { 135 };
    let mut bytes = match random.below(8) {
        0..=3 => Vec::new(),
        4 => {
            let short = random.pick(&[0, 0, 1, 2]);
            random.bytes_from(0, most - short)
        }
        _ => {
            let line = lines::line(random, device, place);
            let length = random.below(line.len() + 1);
            line[..length].to_vec()
        }
    };
    bytes.retain(|&b| b != b'\r');
    bytes.truncate(most);
    let line = &mut device.connections[place].line;
    line.overlong = Flag::from(bytes.is_empty() && random.one_in(4));
    line.held = bytes.len();
    line.bytes[..bytes.len()].copy_from_slice(&bytes);
}

/// A legal record with one to three fields replaced; a few are legal still.
pub fn damaged(random: &mut Random) -> Device {
    let mut device = legal(random);
    for _ in 0..random.pick(&[1, 1, 1, 2, 3]) {
        let field = random.below(fields());
        damage(random, &mut device, field);
    }
    device
}

/// How many fields `damage` knows: those of settings and own part, then those of each place's connection, and last the
/// flags of the own part, which were no bytes before Class 2.
pub fn fields() -> usize {
    if knows_class_2() { FLAGS + 1 } else { FLAGS }
}
const SHARED: usize = 18;
const OF_A_PLACE: usize = 8;
const FLAGS: usize = SHARED + PLACES * OF_A_PLACE;

/// Replaces one field, of those that a record has, in their order.
pub fn damage(random: &mut Random, device: &mut Device, field: usize) {
    let settings = &mut device.settings;
    let own = &mut device.own;
    match field {
        0 if random.one_in(2) => {
            let name = names::any(random);
            rename(device, &name);
        }
        0 => text(random, &mut settings.name),
        1 => text(random, &mut settings.maker),
        2 => text(random, &mut settings.model),
        3 => text(random, &mut settings.other),
        4 if random.one_in(2) => {
            let length = random.from_to(0, 9);
            set_text(&mut settings.password, &random.letters_or_digits(length));
        }
        4 => text(random, &mut settings.password),
        5 => settings.input_count = count(random, settings.input_count, 32),
        6 => settings.inputs[random.below(64)] = random.pick(b"\x000123456789:"),
        7 => settings.inputs.copy_within(0..2, 2 * random.below(32)),
        8 => settings.lamp_count = count(random, settings.lamp_count, 8),
        9 => settings.warm = random.pick(&[0, 1, 600, 601, u32::MAX]),
        10 => settings.cool = random.pick(&[0, 1, 600, 601, u32::MAX]),
        11 => own.power = code(random),
        12 => {
            own.left =
                random.pick(&[0, 1, settings.warm, settings.warm + 1, settings.cool, settings.cool + 1, u32::MAX])
        }
        13 => own.chosen = count(random, own.chosen, settings.input_count),
        14 => own.errors[random.below(6)] = code(random),
        15 => own.lamps[random.below(8)] = random.pick(&[0, 1, 359_999_999, 360_000_000, u32::MAX]),
        16 => {
            let lamp = random.below(8);
            own.enabled[lamp] = flag(random, own.enabled[lamp]);
        }
        17 => own.enabled = [Flag::from(random.one_in(4)); 8],
        FLAGS => {
            let flags = [&mut own.video_muted, &mut own.audio_muted, &mut own.fault, &mut own.frozen];
            let damaged = flags.into_iter().nth(random.below(4)).expect("one of four");
            *damaged = flag(random, *damaged);
        }
        _ => {
            let (place, field) = ((field - SHARED) / OF_A_PLACE, (field - SHARED) % OF_A_PLACE);
            damage_connection(random, &mut device.connections[place], field);
        }
    }
}

/// Bytes that no legal record has as a flag: more than one bit apart from 0 and 1, or one that is not the lowest.
pub const NO_FLAGS: [Flag; 9] =
    [Flag(2), Flag(3), Flag(4), Flag(8), Flag(16), Flag(32), Flag(64), Flag(128), Flag(255)];

/// The other one of 0 and 1, or a byte that no legal record has there.
pub fn flag(random: &mut Random, was: Flag) -> Flag {
    if !knows_class_2() {
        return !was;
    }
    match random.below(4) {
        0 | 1 => !was,
        2 => Flag(1 << random.from_to(1, 7) | was.0),
        _ => Flag(random.from_to(2, 255) as u8),
    }
}

fn damage_connection(random: &mut Random, connection: &mut Connection, field: usize) {
    match field {
        0 => connection.phase = code(random),
        1 => connection.age = random.pick(&[0, 1, 29, 30, 31, u32::MAX]),
        2 => connection.random = random.pick(&[0, 1, u32::MAX]),
        3 => connection.line.overlong = flag(random, connection.line.overlong),
        4 => connection.line.held = count(random, connection.line.held, 167),
        5 => connection.line.held = count(random, connection.line.held, 135),
        6 => connection.line.bytes[random.below(167)] = random.pick(b"\r\x00\n1"),
        _ => {
            let held = connection.line.held.clamp(1, 167);
            connection.line.bytes[random.below(held)] = b'\r';
        }
    }
}

/// The record with another name, or the first 64 bytes of it.
pub fn rename(device: &mut Device, name: &[u8]) {
    set_text(&mut device.settings.name, name);
}

/// These bytes, or the first 64 of them.
pub fn set_text(text: &mut Text, bytes: &[u8]) {
    *text = Text::EMPTY;
    text.len = bytes.len().min(64);
    text.bytes[..text.len].copy_from_slice(&bytes[..text.len]);
}

pub fn text(random: &mut Random, text: &mut Text) {
    match random.below(4) {
        0 => text.len = count(random, text.len, 64),
        1 => text.len = count(random, text.len, 32),
        2 => {
            text.bytes[random.below(64)] =
                random.pick(&[0x00, 0x0D, 0x1F, 0x20, b'/', b'0', b'@', b'A', b'z', b'{', 0xFF])
        }
        _ => {
            let refusal = random.pick(&[*b"ERR0", *b"ERR1", *b"ERR2", *b"ERR3", *b"ERR4", *b"ERR5"]);
            *text = Text::EMPTY;
            text.len = 4;
            text.bytes[..4].copy_from_slice(&refusal);
        }
    }
}

/// Beside itself, at its limit, past its array, or so large that twice or eight times it is small again.
pub fn count(random: &mut Random, count: usize, limit: usize) -> usize {
    match random.below(4) {
        0 => random.pick(&[0, 1, limit, limit + 1]),
        1 => random.pick(&[count.wrapping_add(1), count.saturating_sub(1)]),
        2 => random.pick(&[
            255,
            256,
            count.wrapping_add(256),
            count.wrapping_add(65_536),
            count.wrapping_add(1 << 32),
            count.wrapping_add(1 << 61),
            count.wrapping_add(1 << 63),
        ]),
        _ => random.pick(&[usize::MAX, usize::MAX - 1, usize::MAX - 63, 1 << 31, random_size(count)]),
    }
}

fn random_size(count: usize) -> usize {
    count.wrapping_mul(0x0101_0101_0101_0101)
}

pub fn code(random: &mut Random) -> u8 {
    let any = random.byte();
    random.pick(&[0, 1, 2, 3, 4, 5, 128, 255, any])
}
