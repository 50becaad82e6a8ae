//! Random logs for lamps: power goes on and off, and marks are set and cleared between.

use crate::burnt::mark;
use crate::compare::random::Random;
use crate::logs::damage::damaged;
use crate::logs::making::{self, Temper, any_long, day, noise, open, pass};
use crate::reference::connection::leading_digest;
use crate::reference::{Connection, Power, Projector};
use crate::replay::{PLACE, event, play};

pub fn log(random: &mut Random, projector: Projector) -> Vec<u8> {
    match random.below(32) {
        0 => Vec::new(),
        1 => noise(random, b"OMRTX 00012af%?\r\n\n\0\xFF"),
        _ => day(random, projector, line, play_text),
    }
}

fn play_text(projector: &mut Projector, text: &[u8]) {
    if let Some((lamp, enabled)) = mark(text) {
        let _ = projector.set_mark(lamp, enabled);
    } else if let Some(event) = event(text) {
        play(projector, event);
    }
}

fn line(random: &mut Random, projector: &Projector, temper: &Temper) -> Vec<u8> {
    if random.one_in(temper.long) {
        return any_long(random, projector);
    }
    let good = good(random, projector, temper);
    match random.one_in(temper.damaged) {
        true if random.one_in(2) => near_mark(random),
        true => damaged(random, good),
        false => good,
    }
}

/// What a power asks for more often than the rest: marks while off, seconds in warm-up and cooling.
fn good(random: &mut Random, projector: &Projector, temper: &Temper) -> Vec<u8> {
    let is_idle = matches!(projector.connections[PLACE], Connection::Closed | Connection::Failed { .. });
    match (projector.power, random.below(20)) {
        (_, 0) => open(random),
        (_, 1) => b"X".to_vec(),
        (_, 2..=5) if projector.is_closed(PLACE) => open(random),
        (_, 2..=4) if is_idle => b"X".to_vec(),
        (_, 2) => [b"R ", &making::text(random, projector)[..]].concat(),
        (Power::Off, 6..=9) | (_, 6..=7) => marking(random, projector),
        (Power::Off, 10..=15) => command(random, projector, b"%1POWR 1"),
        (Power::On, 10..=13) => command(random, projector, b"%1POWR 0"),
        (_, 10) => {
            let set = random.pick(&[b"%1POWR 0", b"%1POWR 1", b"%1powr 0", b"%1POWR ?"]);
            command(random, projector, set)
        }
        _ => pass(random, projector, temper),
    }
}

/// Where the digest is awaited it leads, at times another one or none.
fn command(random: &mut Random, projector: &Projector, command: &[u8]) -> Vec<u8> {
    let digest = match projector.connections[PLACE] {
        Connection::Awaiting { random: number, .. } => leading_digest(number, &projector.set_up.password).to_vec(),
        _ => Vec::new(),
    };
    let digest = match random.below(12) {
        0 => Vec::new(),
        1 => digest.to_ascii_uppercase(),
        _ => digest,
    };
    [b"R ", &digest[..], command].concat()
}

/// Mostly of a lamp that there is.
fn marking(random: &mut Random, projector: &Projector) -> Vec<u8> {
    let lamps = projector.lamps.len().max(1);
    let lamp = if random.one_in(10) { random.below(10) } else { random.from_to(1, lamps) };
    format!("M {lamp} {}", random.below(2)).into_bytes()
}

/// Nearly of the form.
fn near_mark(random: &mut Random) -> Vec<u8> {
    let lamp = random.pick(&["1", "1", "2", "3", "8"]);
    let mark = random.pick(&["0", "1"]);
    let line = match random.below(14) {
        0 => format!("M {lamp}"),
        1 => format!("M {lamp} {}", random.pick(&["2", "9", "-", "/", "", "00", "01", "10", "11", "0x0", "+1"])),
        2 => format!("M {lamp} {mark}{}", random.pick(&[" ", "0", "\0", "\r", "\t", "x", " 1", "\n", "\u{FEFF}"])),
        3 => format!("{}M {lamp} {mark}", random.pick(&[" ", "0", "\0", "\r", "\t", "M", "\n", "\u{FEFF}"])),
        4 => format!("{} {lamp} {mark}", random.pick(&["m", "N", "L", "MM", "", "R", "T", "X"])),
        5 => format!("M{lamp} {mark}"),
        6 => format!("M {lamp}{mark}"),
        7 => format!("M {lamp}{}{mark}", random.pick(&["  ", "\t", ",", "=", "\0", "\r", " \n"])),
        8 => format!("M{}{lamp} {mark}", random.pick(&["  ", "\t", ",", "=", "\0", "\r", " \n"])),
        9 => format!("M {}{lamp} {mark}", random.pick(&["0", "00", "000000000", "+", "-", "0x", " "])),
        10..=12 => {
            let bits = random.pick(&[8, 8, 16, 32, 64]);
            format!("M {} {mark}", (1u128 << bits) + random.from_to(1, 8) as u128)
        }
        _ => format!("M {} {mark}", random.pick(&["0", "00", "9", "10", "12", ":", "/", "a", "\u{FF11}", "255", ""])),
    };
    line.into_bytes()
}
