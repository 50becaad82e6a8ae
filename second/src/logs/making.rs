//! Random logs. The lines follow the reference program's own state, so that what arrives fits what is going on.

use super::{damage, recorded};
use crate::compare::lines;
use crate::compare::random::Random;
use crate::compare::recorded::making::any_seconds;
use crate::reference::set_up::LAMP_LIMIT;
use crate::reference::text::{CR, LF, eight_hex_digits};
use crate::reference::{Power, Projector};
use crate::replay::{LONGEST, PLACE, event, play, sample};

/// How often a log has what: one line in so many.
pub struct Temper {
    pub damaged: usize,
    pub long: usize,
    /// Whether seconds come by the year.
    pub ages: bool,
}

impl Temper {
    fn any(random: &mut Random) -> Temper {
        Temper { damaged: random.pick(&[2, 5, 20, 1000]), long: random.pick(&[20, 200, 2000]), ages: random.one_in(3) }
    }
}

/// Of the first kind, or a history, in one case of four.
pub fn log(random: &mut Random) -> Vec<u8> {
    match random.below(32) {
        24..=30 => recorded::log(random, None, &mut any_seconds),
        31 => after_a_first_line(random),
        0 => Vec::new(),
        1 => vec![LF; random.length_to(300)],
        2 => noise(random, b"ORTX 00019af%?\r\n\n\0\xFF"),
        3 => {
            let length = random.below(3000);
            random.bytes_from(0, length)
        }
        _ => day(random, sample(), line, play_text),
    }
}

/// Lines of the first kind after one that makes a history of them, or hardly not.
fn after_a_first_line(random: &mut Random) -> Vec<u8> {
    let first = if random.one_in(3) { random.pick(recorded::HARDLY) } else { random.pick(recorded::NEARLY) };
    let day = day(random, sample(), line, play_text);
    match random.below(8) {
        0 => first.to_vec(),
        _ => [first, b"\n", &day].concat(),
    }
}

pub fn noise(random: &mut Random, bytes: &[u8]) -> Vec<u8> {
    (0..random.below(2000)).map(|_| random.pick(bytes)).collect()
}

/// Lines of every kind, each made for what the lines before it did; at the end an LF is missing at times.
pub fn day(
    random: &mut Random,
    mut projector: Projector,
    line: fn(&mut Random, &Projector, &Temper) -> Vec<u8>,
    play_text: fn(&mut Projector, &[u8]),
) -> Vec<u8> {
    let temper = Temper::any(random);
    let most = random.pick(&[3, 30, 150, 400]);
    let mut log = Vec::new();
    for _ in 0..=random.below(most) {
        let line = line(random, &projector, &temper);
        // a text may have an LF in it, and then it is more than one line
        line.split(|&byte| byte == LF).for_each(|text| play_text(&mut projector, text));
        log.extend(line);
        log.push(LF);
    }
    match random.below(8) {
        0 | 1 => drop(log.pop()),
        2 => {
            let length = random.pick(&[LONGEST - 1, LONGEST, LONGEST + 1]);
            log.extend(long(random, &projector, length));
            if random.one_in(2) {
                log.push(LF);
            }
        }
        _ => (),
    }
    log
}

fn play_text(projector: &mut Projector, text: &[u8]) {
    if let Some(event) = event(text) {
        play(projector, event);
    }
}

fn line(random: &mut Random, projector: &Projector, temper: &Temper) -> Vec<u8> {
    if random.one_in(temper.long) {
        return any_long(random, projector);
    }
    let good = good(random, projector, temper);
    if random.one_in(temper.damaged) { damage::damaged(random, good) } else { good }
}

pub fn any_long(random: &mut Random, projector: &Projector) -> Vec<u8> {
    let lengths = [4095, 4096, 4096, 4096, 4096, 4097, 4097, 4097, 4098, 8191, 8192, 8193, 12_288, 65_537];
    let length = random.pick(&lengths);
    long(random, projector, length)
}

fn good(random: &mut Random, projector: &Projector, temper: &Temper) -> Vec<u8> {
    let closed = projector.is_closed(PLACE);
    match random.below(20) {
        0..=7 if closed => open(random),
        8 | 9 if closed => b"X".to_vec(),
        0 => open(random),
        1 => b"X".to_vec(),
        2..=6 => pass(random, projector, temper),
        _ => [b"R ", &text(random, projector)[..]].concat(),
    }
}

pub fn open(random: &mut Random) -> Vec<u8> {
    let number = random.word();
    let number = random.pick(&[number, number, number, 0, 1, u32::MAX]);
    [b"O ", &eight_hex_digits(number)[..]].concat()
}

/// Commands, their cases and damages as the calls are compared on, without the CR that `R` adds.
pub fn text(random: &mut Random, projector: &Projector) -> Vec<u8> {
    match random.below(16) {
        0..=2 => b"%1POWR 1".to_vec(),
        3 => b"%1POWR 0".to_vec(),
        4 | 5 => b"%1LAMP ?".to_vec(),
        6 => {
            let length = random.length_to(140);
            random.bytes_from(0, length)
        }
        7 => padded(random, b"%1CLSS ?"),
        _ => {
            let mut line = lines::line(random, &projector.record(), PLACE);
            if line.ends_with(&[CR]) {
                line.pop();
            }
            line
        }
    }
}

/// A command with spaces to around 135 bytes, the most that a line has.
fn padded(random: &mut Random, command: &[u8]) -> Vec<u8> {
    let mut text = command.to_vec();
    text.resize(random.pick(&[9, 10, 134, 135, 136, 137, 167, 168, 300]), random.pick(b"  a\0\xFF"));
    text
}

pub fn pass(random: &mut Random, projector: &Projector, temper: &Temper) -> Vec<u8> {
    let seconds = seconds(random, projector, temper);
    let width = if random.one_in(6) { random.from_to(1, 10) } else { 1 };
    format!("T {seconds:0width$}").into_bytes()
}

/// Around what is left of warm-up and cooling, around 30 seconds and whole hours; with ages, around the lamp limit and
/// the ends of the range.
fn seconds(random: &mut Random, projector: &Projector, temper: &Temper) -> u32 {
    let first = projector.lamps.first().copied().unwrap_or_default();
    let left = match projector.power {
        Power::WarmUp(left) | Power::Cooling(left) => left,
        Power::On | Power::Off => 3600 - first % 3600,
    };
    let to_limit = LAMP_LIMIT - first;
    match random.below(if temper.ages { 12 } else { 9 }) {
        0 => random.pick(&[0, 1, 2, 10, 99, 100]),
        1 | 2 => left - 1,
        3 | 4 => left,
        5 => left + 1,
        6 => random.pick(&[29, 30, 31, 3599, 3600, 3601]),
        7 => random.below(700) as u32,
        8 => random.below(100_000) as u32,
        9 => random.word(),
        10 => random.pick(&[to_limit.saturating_sub(1), to_limit, to_limit + 1]),
        _ => random.pick(&[u32::MAX, u32::MAX - 1, 1 << 31, (1 << 31) - 1, 1_000_000_000, 999_999_999]),
    }
}

/// A line of that length: a good line, filled up; at times with a CR in it or with good lines where a reader might cut.
fn long(random: &mut Random, projector: &Projector, length: usize) -> Vec<u8> {
    let start = random.pick(&[&b"R "[..], b"R ", b"R %1POWR 1", b"R %1POWR ?", b"T 0", b"O 0", b"X", b""]);
    let mut line = start.to_vec();
    line.resize(length, random.pick(b"aa 0\0\xFF"));
    if random.one_in(4) {
        let place = random.pick(&[LONGEST - 1, LONGEST, LONGEST + 1]);
        let temper = Temper { damaged: 1, long: 1, ages: false };
        let within: Vec<u8> = good(random, projector, &temper).into_iter().filter(|&byte| byte != LF).collect();
        line.truncate(place);
        line.extend(within);
    }
    if random.one_in(6) {
        let place = random.below(line.len());
        line[place] = random.pick(b"\r\r\0");
    }
    line
}
