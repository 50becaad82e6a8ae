//! Logs that a host keeps: calls at four places, in any cuts, recorded, with files begun and lines that state.

use crate::compare::controllers::next_part;
use crate::compare::histories::{self, NO_PLACES, after, any_random, error_digits};
use crate::compare::random::Random;
use crate::compare::{class_2, forms, lines, setups};
use crate::face::{Act, Answer, Device, Kept, Log, PLACES, Part, Said, Side};
use crate::reference::connection::leading_digest;
use crate::reference::rules::unmistaken;
use crate::reference::side::Second;
use crate::reference::{calls, swap};

/// How many seconds pass next.
pub type Seconds<'a> = &'a mut dyn FnMut(&mut Random, &Device) -> u32;

/// The record where a log begins: that of a set-up, whose form is stored, or of a form in any version.
pub fn started(random: &mut Random) -> (Device, Option<Vec<u8>>) {
    loop {
        let (device, form) = any_started(random);
        if unmistaken(|| calls::legal(&device)) {
            return (device, form);
        }
    }
}

/// In a few, something is refused.
fn any_started(random: &mut Random) -> (Device, Option<Vec<u8>>) {
    let device = unmistaken(|| match random.below(4) {
        0 => calls::set_up_2(&class_2::setups::legal(random)).device,
        _ => calls::set_up(&setups::legal(random)).device,
    });
    if random.one_in(2) {
        return (device, None);
    }
    let form = match random.below(3) {
        0 => forms::old(&setups::legal(random)),
        _ => forms::stored_of(&device),
    };
    let loaded = unmistaken(|| swap::load(&form));
    (loaded.device, Some(form))
}

/// A log's numbers before its first file, and the record where it begins.
pub fn begun(device: &Device, form: Option<&[u8]>) -> (Device, Log) {
    let form = form.map_or_else(|| forms::stored_of(device), <[u8]>::to_vec);
    unmistaken(|| (swap::load(&form).device, Log::begun(&form)))
}

/// What the reference program keeps.
pub fn kept(device: &Device, form: Option<&[u8]>, parts: Vec<Part>) -> Kept {
    let act = Act::Keep { form: form.map(<[u8]>::to_vec), parts };
    match unmistaken(|| Second.answer(device, &act)) {
        Answer::Kept(kept) => *kept,
        _ => unreachable!("it keeps"),
    }
}

/// A log from a record that was set up or loaded: its first file, then calls, other files and stated lines.
pub fn parts(random: &mut Random, mut device: Device, most: usize, seconds: Seconds) -> Vec<Part> {
    let mut parts = vec![Part::File(time(random))];
    let mut unsent: [Vec<u8>; PLACES] = Default::default();
    for _ in 0..random.from_to(1, most) {
        match random.below(24) {
            0 | 1 => parts.push(Part::State),
            2 => parts.push(Part::File(time(random))),
            _ => {
                let act = act(random, &device, &mut unsent, seconds);
                device = unmistaken(|| after(&device, &handed_on(&act)));
                parts.push(Part::Call(act));
            }
        }
    }
    if random.one_in(3) {
        parts.push(Part::State);
    }
    parts
}

/// What is received is handed on until all is taken.
fn handed_on(act: &Act) -> Act {
    match act {
        Act::Receive { place, bytes, lent } if lent.len() >= 136 => {
            Act::HandOn { place: *place, bytes: bytes.clone(), cuts: Vec::new() }
        }
        _ => act.clone(),
    }
}

/// A call that can change a record, served more often than not.
fn act(random: &mut Random, device: &Device, unsent: &mut [Vec<u8>; PLACES], seconds: Seconds) -> Act {
    let taken: Vec<usize> = (0..PLACES).filter(|&place| device.connections[place].phase != 0).collect();
    match random.below(24) {
        _ if taken.is_empty() && !random.one_in(5) => open(random),
        0 | 1 => open(random),
        2 => Act::Close { place: histories::place(random, device) },
        3..=7 => Act::Pass { seconds: seconds(random, device) },
        8 if device.own.power == 0 || random.one_in(4) => marking(random, device),
        9 if random.one_in(2) => Act::SetFault { mark: random.one_in(2) },
        9 => Act::SetErrors { digits: error_digits(random) },
        10 => match histories::act(random, device) {
            // these begin another history
            Act::SetUp(_) | Act::SetUp2(_) | Act::Load { .. } => Act::Legal,
            Act::Pass { .. } | Act::PassInPlace { .. } => Act::PassInPlace { seconds: seconds(random, device) },
            act => act,
        },
        11..=16 if !taken.is_empty() => {
            let place = random.pick(&taken);
            power(random, device, place)
        }
        17 if random.one_in(6) => long(random),
        _ => next_part(random, device, unsent),
    }
}

fn open(random: &mut Random) -> Act {
    Act::Open { random: any_random(random), lent: random.reply_memory(136) }
}

fn marking(random: &mut Random, device: &Device) -> Act {
    let lamp = if random.one_in(8) { random.below(10) } else { random.below(device.settings.lamp_count.max(1)) };
    Act::SetMark { lamp, enabled: random.one_in(2) }
}

/// Power on where it is off, and off where it is on, more often than not; led by its digest where one is awaited.
fn power(random: &mut Random, device: &Device, place: usize) -> Act {
    let connection = &device.connections[place];
    let password = &device.settings.password;
    let digest = match connection.phase {
        1 if !random.one_in(8) => leading_digest(connection.random, &password.bytes[..password.len]).to_vec(),
        _ => Vec::new(),
    };
    let command = match device.own.power {
        0 | 3 if !random.one_in(4) => &b"%1POWR 1\r"[..],
        1 if !random.one_in(4) => b"%1POWR 0\r",
        _ => random.pick(&[&b"%1POWR ?\r"[..], b"%1LAMP ?\r", b"%1POWR 0\r", b"%1POWR 1\r", b"%1ERST ?\r"]),
    };
    Act::Receive { place, bytes: [&digest, command].concat(), lent: random.memory(136) }
}

/// More bytes than one line says, with CRs among them and without.
fn long(random: &mut Random) -> Act {
    let length = random.pick(&[2045, 2046, 2047, 2048, 4092, 4093, 6000]);
    let mut bytes = vec![random.pick(b"aa \0"); length];
    for _ in 0..random.below(3) {
        bytes[random.below(length)] = b'\r';
    }
    Act::Receive { place: random.below(PLACES), bytes, lent: random.memory(136) }
}

pub fn any_seconds(random: &mut Random, device: &Device) -> u32 {
    if random.one_in(3) { random.pick(&[0, 1, 2, 29, 30, 60, 600]) } else { histories::seconds(random, device) }
}

/// "RFC 3339 is meant; it is no more than passed on."
pub fn time(random: &mut Random) -> Vec<u8> {
    match random.below(6) {
        0 | 1 => b"2026-11-27T05:45:09Z".to_vec(),
        2 => {
            let length = random.pick(&[1, 34, 35]);
            (0..length).map(|_| random.from_to(usize::from(b'!'), usize::from(b'~')) as u8).collect()
        }
        _ => Vec::new(),
    }
}

/// A log may have any numbers.
pub fn log(random: &mut Random) -> Log {
    let any = random.word();
    let file = random.pick(&[0, 1, 1, 1, 2, 9, 10, any, u32::MAX - 1, u32::MAX]);
    let lines = random.pick(&[0, 1, 9, 10, 99, any >> 16, any, u32::MAX - 1, u32::MAX]);
    Log { file, lines, sum: random.pick(&[any, any, any >> 4, 0, 1, u32::MAX]) }
}

/// What a line is to say, in its range and out of it.
pub fn said(random: &mut Random, device: &Device) -> Said {
    match random.below(13) {
        0 => Said::File { time: any_time(random) },
        1 | 2 => Said::Opened { place: any_place(random), random: random.word() >> random.pick(&[0, 0, 4, 16, 28]) },
        3..=6 => Said::Received { place: any_place(random), bytes: bytes(random, device) },
        7 => Said::Passed { seconds: random.word() >> random.pick(&[0, 8, 16, 24, 31]) },
        8 => Said::Closed { place: any_place(random) },
        9 => Said::Fault { mark: random.one_in(2) },
        10 => Said::Errors { digits: error_digits(random) },
        11 => Said::Mark { lamp: any_lamp(random), enabled: random.one_in(2) },
        _ => Said::Stated,
    }
}

fn any_place(random: &mut Random) -> usize {
    if random.one_in(8) { random.pick(NO_PLACES) } else { random.below(PLACES) }
}

fn any_lamp(random: &mut Random) -> usize {
    if random.one_in(8) { random.pick(NO_PLACES) } else { random.below(10) }
}

fn any_time(random: &mut Random) -> Vec<u8> {
    let mut time = time(random);
    match random.below(12) {
        0 => time.resize(random.pick(&[35, 36, 37, 100]), b'1'),
        1 => random.damage(&mut time),
        _ => (),
    }
    time
}

/// What is one line of a controller, and what is nearly one.
fn bytes(random: &mut Random, device: &Device) -> Vec<u8> {
    let place = random.below(PLACES);
    let mut bytes = lines::line(random, device, place);
    match random.below(16) {
        0 => bytes.truncate(random.below(bytes.len() + 1)),
        1 => random.damage(&mut bytes),
        2 => bytes.insert(bytes.len().saturating_sub(1), b' '),
        3 => bytes.insert(0, b' '),
        4 => bytes.push(random.pick(b"\r\n \0%")),
        5 => bytes.resize(random.pick(&[0, 1, 2, 2045, 2046, 2047, 2048, 4096]), random.pick(b"a \r\xFF")),
        6 => {
            bytes.resize(random.pick(&[2044, 2045, 2046]), b'a');
            bytes.push(b'\r');
        }
        7 => {
            let length = random.below(60);
            bytes = random.bytes_from(0, length);
        }
        _ => (),
    }
    bytes
}
