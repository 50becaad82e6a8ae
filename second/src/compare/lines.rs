//! What arrives on a connection: lines well-formed and damaged, led by digests right and wrong.

use super::random::Random;
use crate::face::{Device, PLACES};
use crate::reference::commands::BODIES;
use crate::reference::connection::leading_digest;

/// A line for this device's connection at a place, with its CR more often than not.
pub fn line(random: &mut Random, device: &Device, place: usize) -> Vec<u8> {
    let mut line = Vec::new();
    if device.connections[place].phase == 1 || random.one_in(30) {
        line = digest(random, device, place);
    }
    line.extend(command_line(random, device));
    if random.one_in(20) {
        random.damage(&mut line);
    }
    if !random.one_in(10) {
        line.push(b'\r');
    }
    line
}

/// Lines one after another, and what they may be mixed with.
pub fn stream(random: &mut Random, device: &Device, place: usize) -> Vec<u8> {
    let mut bytes = Vec::new();
    for _ in 0..random.from_to(1, 6) {
        bytes.extend(line(random, device, place));
        if random.one_in(8) {
            bytes.extend(random.pick(&[&b"\r"[..], b"\n", b"\r\r", b"\r\n", b"%1"]));
        }
    }
    bytes
}

/// Right, wrong by one character, in upper case, cut, too long, none; or another place's.
pub fn digest(random: &mut Random, device: &Device, place: usize) -> Vec<u8> {
    let password = &device.settings.password;
    let place = if random.one_in(8) { random.below(PLACES) } else { place };
    let right = leading_digest(device.connections[place].random, &password.bytes[..password.len.min(64)]);
    let mut digest = right.to_vec();
    let place = random.below(32);
    match random.below(12) {
        0 => digest[place] = random.pick(b"0123456789abcdef"),
        1 => digest.make_ascii_uppercase(),
        2 => digest[place].make_ascii_uppercase(),
        3 => digest.truncate(place),
        4 => digest.push(b'0'),
        5 => digest.clear(),
        _ => (),
    }
    digest
}

fn command_line(random: &mut Random, device: &Device) -> Vec<u8> {
    let body = if random.one_in(2) { random.below(3) } else { random.below(BODIES.len()) };
    let mut line = b"%1".to_vec();
    match random.below(12) {
        0 => line.extend(random.letters_or_digits(4)),
        _ => line.extend(any_case(random, BODIES[body].1)),
    }
    line.push(b' ');
    let parameter = parameter(random, device, body);
    line.extend(parameter);
    match random.below(40) {
        0 => random.damage(&mut line),
        1 => line.truncate(random.below(8)),
        2 => line[1] = random.pick(b"02 %?"),
        3 => {
            let place = random.from_to(2, 6);
            line[place] = random.pick(b" \n/:@[`{\xC3=?");
        }
        _ => (),
    }
    line
}

/// "every case of letters": each letter by itself.
pub fn any_case(random: &mut Random, body: &[u8]) -> Vec<u8> {
    let cases = if random.one_in(2) { 0 } else { random.byte() };
    body.iter().enumerate().map(|(i, b)| if cases >> i & 1 == 1 { b.to_ascii_lowercase() } else { *b }).collect()
}

fn parameter(random: &mut Random, device: &Device, body: usize) -> Vec<u8> {
    match random.below(20) {
        0 => Vec::new(),
        1 => long_parameter(random),
        2 => random.pick(&[&b"??"[..], b"? ", b" ?", b"0", b"1", b"2", b"3", b"01", b"1 ", b"OK", b"ERR1"]).to_vec(),
        3 => random.pick(&[&b"00"[..], b"12", b"13", b"22", b"32", b"40", b"41", b"110", b"3", b"61", b"10"]).to_vec(),
        4..=9 => b"?".to_vec(),
        _ => match body {
            0 => vec![random.pick(b"0011123")],
            1 => input(random, device),
            2 => vec![random.pick(b"123"), random.pick(b"01")],
            _ => b"?".to_vec(),
        },
    }
}

/// Around 128 bytes, the most that a line has.
pub fn long_parameter(random: &mut Random) -> Vec<u8> {
    let length = random.pick(&[2, 95, 96, 126, 127, 128, 129, 130, 200]);
    let byte = random.pick(b"?a\n\xFF0");
    vec![byte; length]
}

fn input(random: &mut Random, device: &Device) -> Vec<u8> {
    let count = device.settings.input_count.clamp(1, 32);
    match random.below(5) {
        0 => vec![random.pick(b"0123456"), random.pick(b"0123456789")],
        _ => {
            let place = 2 * random.below(count);
            device.settings.inputs[place..place + 2].to_vec()
        }
    }
}
