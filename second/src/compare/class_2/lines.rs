//! What arrives on a connection of a projector of either class: `%2` lines well-formed and damaged, among `%1` lines.

use crate::compare::lines::{self, any_case, long_parameter};
use crate::compare::random::Random;
use crate::face::Device;
use crate::reference::class_2::BODIES_2;
use crate::reference::commands::BODIES;

/// Bodies of Class 2 that are not asked for (RULES, Class 2).
const LEFT_OUT: [&[u8; 4]; 5] = [b"IRES", b"RRES", b"FILT", b"RLMP", b"RFIL"];

/// A line for this device's connection at a place, with its CR more often than not.
pub fn line(random: &mut Random, device: &Device, place: usize) -> Vec<u8> {
    if random.one_in(6) {
        return lines::line(random, device, place);
    }
    let mut line = Vec::new();
    if device.connections[place].phase == 1 || random.one_in(30) {
        line = lines::digest(random, device, place);
    }
    line.extend(command_line(random, device));
    if random.one_in(20) {
        random.damage(&mut line);
    }
    if !random.one_in(10) {
        line.push(b'\r');
    }
    line
}

/// Lines one after another, and what they may be mixed with.
pub fn stream(random: &mut Random, device: &Device, place: usize) -> Vec<u8> {
    let mut bytes = Vec::new();
    for _ in 0..random.from_to(1, 6) {
        bytes.extend(line(random, device, place));
        if random.one_in(8) {
            bytes.extend(random.pick(&[&b"\r"[..], b"\n", b"\r\r", b"\r\n", b"%2"]));
        }
    }
    bytes
}

fn command_line(random: &mut Random, device: &Device) -> Vec<u8> {
    let body: &[u8; 4] = match random.below(12) {
        0 => BODIES[random.below(BODIES.len())].1,
        1 => random.pick(&LEFT_OUT),
        _ => BODIES_2[random.below(BODIES_2.len())].1,
    };
    let mut line = vec![b'%', random.pick(b"22222221")];
    match random.below(24) {
        0 => line.extend(random.letters_or_digits(4)),
        _ => line.extend(any_case(random, body)),
    }
    line.push(b' ');
    line.extend(parameter(random, device, body));
    match random.below(40) {
        0 => random.damage(&mut line),
        1 => line.truncate(random.below(8)),
        2 => line[1] = random.pick(b"013 %?"),
        3 => {
            let place = random.from_to(2, 6);
            line[place] = random.pick(b" \n/:@[`{\xC3=?");
        }
        _ => (),
    }
    line
}

fn parameter(random: &mut Random, device: &Device, body: &[u8; 4]) -> Vec<u8> {
    match random.below(16) {
        0 => Vec::new(),
        1 => long_parameter(random),
        2 => random.pick(&[&b"??"[..], b"? ", b" ?", b"2", b"01", b"10", b"1 ", b"OK", b"-1", b"+1", b"?1"]).to_vec(),
        3 => vec![random.pick(b"01")],
        4..=6 => b"?".to_vec(),
        _ => match body {
            b"INPT" => input(random, device),
            b"INNM" => asked_name(random, device),
            b"FREZ" | b"SVOL" | b"MVOL" => vec![random.pick(b"00011112?")],
            _ => b"?".to_vec(),
        },
    }
}

/// `?` and an input; at times without it, or with something after it.
fn asked_name(random: &mut Random, device: &Device) -> Vec<u8> {
    let input = input(random, device);
    match random.below(12) {
        0 => input,
        1 => [&input[..], b"?"].concat(),
        2 => [b"? ", &input[..]].concat(),
        3 => [b"?", &input[..], b" "].concat(),
        4 => [b"?", &input[..1]].concat(),
        _ => [b"?", &input[..]].concat(),
    }
}

/// One of the list, more often than not; at times in lower case.
fn input(random: &mut Random, device: &Device) -> Vec<u8> {
    let count = device.settings.input_count.clamp(1, 32);
    match random.below(6) {
        0 => vec![random.pick(b"01234567"), random.pick(b"0123456789:@ABYZ[abyz")],
        listed => {
            let place = 2 * random.below(count);
            let input = &device.settings.inputs[place..place + 2];
            if listed == 1 { input.to_ascii_lowercase() } else { input.to_vec() }
        }
    }
}
