//! Commands and replies of both classes, of Class 2 more often; valid and damaged.

use crate::compare::lines::any_case;
use crate::compare::random::Random;
use crate::compare::replies;
use crate::face::{Act, Command};
use crate::reference::class_2::BODIES_2;
use crate::reference::commands::BODIES;

/// The last code that there is.
const LAST: usize = 23;

/// The body of each command's code in Class 2, from 14 on, as its place in `BODIES_2`.
const BODY_2: [usize; 10] = [2, 2, 3, 4, 5, 6, 7, 0, 0, 1];

pub fn write(random: &mut Random) -> Act {
    let Act::Write { secured, random: number, password, lent, .. } = replies::write(random) else { unreachable!() };
    Act::Write { command: command(random), secured, random: number, password, lent }
}

/// Mostly a command; those of Class 2 twice as often as the others.
pub fn command(random: &mut Random) -> Command {
    let any = [random.byte(), random.byte(), random.byte()];
    let code = match random.below(16) {
        0 => random.pick(&[24, 25, 255, any[0]]),
        1..=10 => random.from_to(14, LAST) as u8,
        11 => 3,
        _ => random.below(14) as u8,
    };
    let edges = (random.pick(&[0, 1, 2, 5, 6, 7, any[1]]), random.pick(&[0, 1, 9, 10, 35, 36, any[2]]));
    let (first, second) = match code {
        _ if random.one_in(8) => edges,
        1 | 15..=17 => (random.below(2) as u8, any[2]),
        3 | 20 | 22 => (random.from_to(1, 6) as u8, random.from_to(1, 35) as u8),
        5 => (random.from_to(1, 3) as u8, random.below(2) as u8),
        _ => (any[1], any[2]),
    };
    Command { code, first, second }
}

pub fn read_reply(random: &mut Random) -> Act {
    let command = command(random);
    Act::ReadReply { command, line: reply_line(random, command) }
}

/// The class digit and the body of a code.
pub fn head(code: usize) -> (u8, &'static [u8; 4]) {
    match code {
        0..=13 => (b'1', BODIES[replies::BODY[code]].1),
        _ => (b'2', BODIES_2[BODY_2[code - 14]].1),
    }
}

/// A reply to this command, at times to another or of the other class, and at times damaged.
pub fn reply_line(random: &mut Random, command: Command) -> Vec<u8> {
    let code = if random.one_in(12) { random.below(LAST + 1) } else { usize::from(command.code).min(LAST) };
    let mut line = match random.below(40) {
        0 => b"PJLINK ERRA\r".to_vec(),
        _ => {
            let (class, body) = head(code);
            let class = if random.one_in(10) { random.pick(b"12123") } else { class };
            let body = any_case(random, body);
            let meant = if random.one_in(16) { random.below(LAST + 1) } else { code };
            [b"%", &[class][..], &body[..], b"=", &parameter(random, meant), b"\r"].concat()
        }
    };
    for _ in 0..random.pick(&[0, 0, 0, 0, 1, 2]) {
        random.damage(&mut line);
    }
    line
}

/// A parameter for a command of this code, mostly one that is allowed.
fn parameter(random: &mut Random, code: usize) -> Vec<u8> {
    if random.one_in(8) {
        return random
            .pick(&[&b"OK"[..], b"ok", b"ERR0", b"ERR1", b"ERR2", b"ERR3", b"ERR4", b"ERR5", b"ERRA"])
            .to_vec();
    }
    match code {
        2 | 21 => input(random),
        8 | 23 => inputs(random),
        13 => random.pick(&[&b"1"[..], b"2", b"2", b"3", b"0", b"12", b"2 "]).to_vec(),
        14 => random.pick(&[&b"0"[..], b"1", b"0", b"1", b"2", b"", b"01", b"?"]).to_vec(),
        15..=17 | 22 => random.pick(&[&b"OK"[..], b"ERR1", b"ERR2", b"ERR3", b"ERR4", b"", b"10"]).to_vec(),
        18 | 19 => replies::text(random, 32),
        20 => {
            let length = random.pick(&[127, 128, 128, 129]);
            let long = random.bytes_from(0x20, length);
            let other = replies::text(random, 128);
            if random.one_in(4) { long } else { other }
        }
        _ => replies::parameter(random, code),
    }
}

fn input(random: &mut Random) -> Vec<u8> {
    match random.below(4) {
        0 => vec![random.pick(b"01234567"), random.pick(b"0123456789:@ABYZ[abyz")],
        _ => vec![random.pick(b"123456"), random.pick(b"123456789ABCDEFGHIJKLMNOPQRSTUVWXYZ")],
    }
}

fn inputs(random: &mut Random) -> Vec<u8> {
    let count = random.pick(&[0, 1, 2, 5, 16, 31, 32, 32, 33]);
    let mut inputs: Vec<Vec<u8>> = Vec::new();
    for _ in 0..count {
        inputs.push(vec![random.pick(b"123456"), random.pick(b"123456789ABCDEFGHIJKLMNOPQRSTUVWXYZ")]);
    }
    if random.one_in(4) && count > 0 {
        let place = random.below(count);
        inputs[place] = random.pick(&[&b"10"[..], b"7A", b"6a", b"0A", b"1", b"", b"6AA", b"6@", b"6["]).to_vec();
    }
    inputs.join(&b' ')
}
