//! Lines of a log that were taken out, doubled or changed, and such as nobody wrote.

use crate::compare::random::Random;
use crate::face::{Device, Log};
use crate::reference::Projector;
use crate::reference::recorded::chain::shown_of;
use crate::reference::recorded::lines::{self, text};
use crate::reference::recorded::{Call, Entry};
use crate::reference::rules::unmistaken;

/// A line that comes where another of these is due, which is that at `stop`.
pub fn line(random: &mut Random, lines: &[&[u8]], stop: usize, log: &Log, device: &Device) -> Vec<u8> {
    let due = lines[stop].to_vec();
    match random.below(12) {
        0 => lines[random.below(lines.len())].to_vec(),
        1 => lines[stop.saturating_sub(1)].to_vec(),
        2 => lines.get(stop + 1).map_or(due, |line| line.to_vec()),
        3 | 4 => changed(random, due),
        5 => header(random, log),
        6 | 7 => stated(random, log, device),
        8 => call(random),
        9 => changed_number(random, due),
        _ => other(random),
    }
}

/// A line with something of it changed.
pub fn changed(random: &mut Random, mut line: Vec<u8>) -> Vec<u8> {
    match random.below(12) {
        0 => line.push(b' '),
        1 => line.push(b'\r'),
        2 => line.insert(0, b' '),
        3 => line.make_ascii_uppercase(),
        4 => line.make_ascii_lowercase(),
        5 => in_hex(&mut line),
        6 => drop(line.pop()),
        7 => line.extend(b"0"),
        8 => {
            let place = line.iter().position(|&byte| byte == b' ').unwrap_or(0);
            line.insert(place, b' ');
        }
        9 => line.resize(random.pick(&[lines::LONGEST, lines::LONGEST + 1, 9000]), b'0'),
        _ => random.damage(&mut line),
    }
    line.retain(|&byte| byte != b'\n');
    line
}

/// One of its digits is another, a zero before it, or left out.
pub fn changed_number(random: &mut Random, mut line: Vec<u8>) -> Vec<u8> {
    let digits: Vec<usize> = (0..line.len()).filter(|&place| line[place].is_ascii_hexdigit()).collect();
    if digits.is_empty() {
        return line;
    }
    let place = random.pick(&digits);
    match random.below(5) {
        0 => line.insert(place, b'0'),
        1 => drop(line.remove(place)),
        2 => line[place] = random.pick(b"0123456789"),
        3 => line[place] = random.pick(b"abcdefABCDEFgG"),
        _ => line[place] = if line[place] == b'0' { b'1' } else { b'0' },
    }
    line
}

/// A line of a controller in hex.
fn in_hex(line: &mut Vec<u8>) {
    if let Some(Entry::Call(Call::Received { place, bytes })) = unmistaken(|| lines::entry(line)) {
        let digits: String = bytes.iter().map(|byte| format!("{byte:02x}")).collect();
        *line = format!("B {place} {digits}").into_bytes();
    }
}

/// The next header, one of another number, or with another sum.
fn header(random: &mut Random, log: &Log) -> Vec<u8> {
    let next = log.file.wrapping_add(1);
    let file = random.pick(&[next, next, next, next.wrapping_add(1), log.file, 1]);
    let sum = if random.one_in(3) { log.sum ^ 1 << random.below(32) } else { log.sum };
    let time = if random.one_in(2) { b" 2026-11-27T05:45:09Z".to_vec() } else { Vec::new() };
    [format!("LOG 2 {file} {sum:08x}").into_bytes(), time].concat()
}

/// What would be stated here, or with one part of it another.
fn stated(random: &mut Random, log: &Log, device: &Device) -> Vec<u8> {
    let shown = match unmistaken(|| Projector::read(device)) {
        Some(projector) => unmistaken(|| shown_of(&projector)),
        None => b"power 0 lamps".to_vec(),
    };
    let (mut lines, mut sum, mut shown) = (log.lines, log.sum, shown);
    match random.below(8) {
        0 => lines = lines.wrapping_add(1),
        1 => lines = lines.wrapping_sub(1),
        2 => sum ^= 1 << random.below(32),
        3 => shown[6] = random.pick(b"0123"),
        4 => shown.extend(b" 0"),
        5 => *shown.last_mut().expect("it says something") = random.pick(b"0123456789"),
        6 => random.damage(&mut shown),
        _ => (),
    }
    shown.retain(|&byte| byte != b'\n');
    [format!("S {lines} {sum:08x} ").into_bytes(), shown].concat()
}

/// A call at any place, which is served or not.
fn call(random: &mut Random) -> Vec<u8> {
    let place = random.below(4);
    let call = match random.below(10) {
        0..=2 => Call::Opened { place, random: random.word() },
        3 => Call::Received { place, bytes: b"%1POWR 1\r".to_vec() },
        4 => Call::Received { place, bytes: random.pick(&[&b""[..], b"\r", b"%1POWR", b" 1\r%1POWR ?\r"]).to_vec() },
        5 => Call::Closed { place },
        6 => Call::Fault(random.one_in(2)),
        7 => Call::Errors([0, 1, 2, 0, 1, 2]),
        8 => Call::Mark { lamp: random.below(8), enabled: random.one_in(2) },
        _ => Call::Passed(random.below(100) as u32),
    };
    unmistaken(|| text(&Entry::Call(call))).expect("a line says it")
}

/// Of no form, or of the first kind, or just still of one.
pub fn other(random: &mut Random) -> Vec<u8> {
    let others: &[&[u8]] = &[
        b"",
        b"?",
        b"O 00000000",
        b"R %1POWR 1",
        b"X",
        b"T",
        b"T ",
        b"T 060",
        b"T 4294967296",
        b"T 00",
        b"T 0",
        b"M 0 1",
        b"M 9 1",
        b"M 8 1",
        b"M 01 1",
        b"M 1 2",
        b"F 2",
        b"F",
        b"E 333333",
        b"E 01200",
        b"E 0120000",
        b"O 4 00000000",
        b"O 0 0000000A",
        b"O 0 0000000",
        b"R 0 ",
        b"R 0  ",
        b"R 0",
        b"R 4 %1POWR 1",
        b"B 0",
        b"B 0 ",
        b"B 0 0",
        b"B 0 0D",
        b"B 0 410d",
        b"B 0 0d0d",
        b"B 3 ff",
        b"X 4",
        b"X 0 ",
        b"LOG",
        b"LOG ",
        b"LOG 1 1 00000000",
        b"LOG 3 1 00000000",
        b"LOG 2 0 00000000",
        b"LOG 2 1 0000000",
        b"LOG 2 01 00000000",
        b"LOG 2 1 00000000 ",
        b"S 0 00000000",
        b"S 0 00000000 ",
        b"S 0 00000000 x",
        b"\xEF\xBB\xBFT 1",
    ];
    random.pick(others).to_vec()
}
