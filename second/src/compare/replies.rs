//! What a controller is lent: commands, greetings and replies, valid and damaged.

use super::lines::any_case;
use super::random::Random;
use super::{names, setups};
use crate::face::{Act, Command};
use crate::reference::commands::BODIES;
use std::collections::BTreeSet;

/// The body of each command's code.
pub const BODY: [usize; 14] = [0, 0, 1, 1, 2, 2, 3, 4, 5, 6, 7, 8, 9, 10];

pub fn write(random: &mut Random) -> Act {
    let length = random.length_to(32);
    let mut password = random.letters_or_digits(length);
    match random.below(8) {
        0 => password = random.letters_or_digits(33),
        1 => random.damage(&mut password),
        2 => password = random.letters_or_digits(256 + 8),
        _ => (),
    }
    let secured = random.one_in(2);
    Act::Write { command: command(random), secured, random: random.word(), password, lent: random.reply_memory(168) }
}

/// Mostly a command; the sets as often as all queries together.
pub fn command(random: &mut Random) -> Command {
    let any = [random.byte(), random.byte(), random.byte()];
    let code = match random.below(16) {
        0 => random.pick(&[14, 15, 255, any[0]]),
        1..=7 => random.pick(&[1, 3, 5]),
        _ => random.below(14) as u8,
    };
    let (first, second) = match code {
        _ if random.one_in(8) => (random.pick(&[0, 1, 2, 4, 6, any[1]]), random.pick(&[0, 1, 2, 10, any[2]])),
        1 => (random.below(2) as u8, any[2]),
        3 => (random.from_to(1, 5) as u8, random.from_to(1, 9) as u8),
        5 => (random.from_to(1, 3) as u8, random.below(2) as u8),
        _ => (any[1], any[2]),
    };
    Command { code, first, second }
}

pub fn read_greeting(random: &mut Random) -> Act {
    Act::ReadGreeting { line: greeting_line(random) }
}

pub fn greeting_line(random: &mut Random) -> Vec<u8> {
    let digits = format!("{:08x}", random.word()).into_bytes();
    let mut line = match random.below(6) {
        0 => b"PJLINK 0\r".to_vec(),
        1 => b"PJLINK ERRA\r".to_vec(),
        2 => [b"PJLINK 1 ", &digits.to_ascii_uppercase()[..], b"\r"].concat(),
        3 => random
            .pick(&[&b"PJLINK 2\r"[..], b"PJLINK 1\r", b"PJLINK 1 \r", b"pjlink 0\r", b"PJLINK 0", b"", b"\r"])
            .to_vec(),
        _ => [b"PJLINK 1 ", &digits[..], b"\r"].concat(),
    };
    if random.one_in(3) {
        random.damage(&mut line);
    }
    line
}

pub fn read_reply(random: &mut Random) -> Act {
    let command = command(random);
    Act::ReadReply { command, line: reply_line(random, command) }
}

/// A reply to this command, at times to another, and at times damaged.
pub fn reply_line(random: &mut Random, command: Command) -> Vec<u8> {
    let code = if random.one_in(12) { random.below(14) } else { usize::from(command.code.min(13)) };
    let mut line = match random.below(40) {
        0 => b"PJLINK ERRA\r".to_vec(),
        _ => {
            let body = any_case(random, BODIES[BODY[code]].1);
            let meant = if random.one_in(16) { random.below(14) } else { code };
            [b"%1", &body[..], b"=", &parameter(random, meant), b"\r"].concat()
        }
    };
    for _ in 0..random.pick(&[0, 0, 0, 1, 2]) {
        random.damage(&mut line);
    }
    if random.one_in(100) {
        line = vec![line.first().copied().unwrap_or(b'%'); random.below(400)];
    }
    line
}

/// The reply that tells a name, read by the controller that asked for it.
pub fn named(name: &[u8]) -> Act {
    Act::ReadReply { command: Command { code: 9, first: 0, second: 0 }, line: [b"%1NAME=", name, b"\r"].concat() }
}

/// A parameter for a command of this code, mostly one that is allowed.
pub fn parameter(random: &mut Random, code: usize) -> Vec<u8> {
    if random.one_in(8) {
        return random
            .pick(&[&b"OK"[..], b"ok", b"ERR0", b"ERR1", b"ERR2", b"ERR3", b"ERR4", b"ERR5", b"ERRA"])
            .to_vec();
    }
    match BODY[code] {
        _ if [1, 3, 5].contains(&code) => random.pick(&[&b"OK"[..], b"ERR1", b"ERR2", b"ERR3", b"ERR4", b""]).to_vec(),
        0 => vec![random.pick(b"012345")],
        1 => vec![random.pick(b"0123456"), random.pick(b"0123456789")],
        2 => vec![random.pick(b"01234"), random.pick(b"012")],
        3 => (0..random.pick(&[6, 6, 6, 6, 5, 7])).map(|_| random.pick(b"00112223")).collect(),
        4 => lamps(random),
        5 => inputs(random),
        6 => name(random),
        10 => random.pick(&[&b"1"[..], b"1", b"2", b"11", b"0"]).to_vec(),
        _ => text(random, 32),
    }
}

fn lamps(random: &mut Random) -> Vec<u8> {
    let count = random.pick(&[0, 1, 1, 2, 3, 7, 8, 8, 9]);
    let lamps: Vec<String> = (0..count).map(|_| lamp(random)).collect();
    lamps.join(" ").into_bytes()
}

fn lamp(random: &mut Random) -> String {
    let hours = match random.below(32) {
        0..=5 => {
            let width = random.from_to(1, 5);
            padded(random, width)
        }
        6 => {
            let width = random.pick(&[6, 6, 6, 7, 10, 11]);
            padded(random, width)
        }
        7 => random.pick(&["", "00000", "000000", "100000", "99999", "4294967297", "+1", "9999a"]).to_string(),
        _ => (setups::lamp_seconds(random) / 3600).to_string(),
    };
    let lit = if random.one_in(24) { random.pick(&["2", "", "01", " 1"]) } else { random.pick(&["0", "1"]) };
    format!("{hours} {lit}")
}

/// A number of so many digits, with every count of leading zeros.
fn padded(random: &mut Random, width: usize) -> String {
    let digits = random.from_to(0, width) as u32;
    format!("{:0width$}", random.below(10usize.pow(digits)))
}

/// Lamp hours of none to eight digits, around powers of ten and padded, of one lamp and among eight (RULES,
/// Controller).
pub fn every_hours() -> Vec<Act> {
    let numbers = [0, 1, 7, 8, 9, 10, 11, 77, 99, 100, 412, 999, 1000, 9999, 10_000, 99_999, 100_000, 999_999];
    let numbers = numbers.into_iter().flat_map(|number: u32| (1..=8).map(move |width| format!("{number:0width$}")));
    let all: BTreeSet<String> = numbers.chain([String::new()]).collect();
    let lamps = all.iter().flat_map(|hours| {
        let among = |place: usize| {
            let mut lamps = ["99999 1"; 8].map(str::to_string);
            lamps[place] = format!("{hours} 0");
            lamps.join(" ")
        };
        [format!("{hours} 0"), format!("{hours} 1"), among(0), among(3), among(7)]
    });
    let command = Command { code: 7, first: 0, second: 0 };
    lamps.map(|lamps| Act::ReadReply { command, line: format!("%1LAMP={lamps}\r").into_bytes() }).collect()
}

fn inputs(random: &mut Random) -> Vec<u8> {
    let count = random.pick(&[0, 1, 2, 5, 16, 31, 32, 32, 33]);
    let strange = random.one_in(4);
    let mut inputs: Vec<Vec<u8>> = Vec::new();
    for _ in 0..count {
        inputs.push(vec![random.pick(b"12345"), random.pick(b"123456789")]);
    }
    if strange && count > 0 {
        let place = random.below(count);
        inputs[place] = random.pick(&[&b"10"[..], b"61", b"01", b"1", b"", b"111", b"1a"]).to_vec();
    }
    inputs.join(&b' ')
}

fn name(random: &mut Random) -> Vec<u8> {
    match random.below(8) {
        0 => names::of_length(random, 65),
        1 => {
            let length = random.pick(&[127, 128, 129, 65, 33]);
            names::of_length(random, length)
        }
        2 => names::wrong(random),
        _ => names::legal(random),
    }
}

/// Around the longest, with every byte from 0x20 and at times one below.
pub fn text(random: &mut Random, longest: usize) -> Vec<u8> {
    let length = match random.below(8) {
        0 => longest + 1,
        1 => random.pick(&[127, 128, 129, 65, 33]),
        _ => random.length_to(longest),
    };
    let least = if random.one_in(8) { 0x1F } else { 0x20 };
    random.bytes_from(least, length)
}
