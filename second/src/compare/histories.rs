//! Histories: a set-up, then calls of every kind, each lent the record that the last one returned.

use super::random::Random;
use super::{Case, forms, lines, setups};
use crate::face::{Act, Device, PLACES, Side};
use crate::reference::side::Second;

/// The acts follow the reference program's own states, so that lines and seconds fit what is going on.
pub fn history(random: &mut Random) -> Case {
    let mut acts = vec![Act::SetUp(setups::legal(random))];
    let mut device = after(&Device::BLANK, &acts[0]);
    while acts.len() < 40 && !random.one_in(40) {
        let act = act(random, &device);
        device = after(&device, &act);
        acts.push(act);
    }
    Case::of(Device::BLANK, acts)
}

pub fn after(device: &Device, act: &Act) -> Device {
    Second.answer(device, act).device().copied().unwrap_or(*device)
}

/// A call on this record. Mostly it is at a place where somebody is connected; openings come the more often the fewer
/// places are taken.
pub fn act(random: &mut Random, device: &Device) -> Act {
    let taken = device.connections.iter().filter(|connection| connection.phase != 0).count();
    if random.one_in([2, 3, 4, 6, 12][taken]) {
        return Act::Open { random: any_random(random), lent: random.reply_memory(136) };
    }
    if random.one_in(if device.own.power == 0 { 8 } else { 64 }) {
        return Act::SetMark { lamp: lamp(random, device), enabled: random.one_in(2) };
    }
    let place = place(random, device);
    let here = place.min(PLACES - 1);
    match random.below(32) {
        0 => Act::Open { random: any_random(random), lent: random.reply_memory(136) },
        1 => Act::Close { place },
        2 => Act::SetFault { mark: random.one_in(2) },
        3 => Act::SetErrors { digits: error_digits(random) },
        4 => Act::Legal,
        5 if random.one_in(4) => Act::SetUp(setups::any(random)),
        5 if random.one_in(2) => forms::load(random, device),
        5 => forms::store(random, device),
        6..=8 => Act::PassInPlace { seconds: seconds(random, device) },
        9..=13 => Act::Pass { seconds: seconds(random, device) },
        14..=15 => Act::Receive { place, bytes: b"%1POWR 1\r".to_vec(), lent: random.memory(136) },
        16 => Act::Receive { place, bytes: lines::stream(random, device, here), lent: random.reply_memory(136) },
        17 => {
            let length = random.below(200);
            Act::Receive { place, bytes: random.bytes_from(0, length), lent: random.reply_memory(136) }
        }
        18..=20 => {
            let mut bytes = lines::line(random, device, here);
            bytes.truncate(random.below(20));
            Act::Receive { place, bytes, lent: random.memory(136) }
        }
        _ => Act::Receive { place, bytes: lines::line(random, device, here), lent: random.reply_memory(136) },
    }
}

/// One that there is, more often than not.
fn lamp(random: &mut Random, device: &Device) -> usize {
    match random.below(10) {
        0 => random.pick(NO_PLACES),
        1 => random.below(10),
        _ => random.below(device.settings.lamp_count.clamp(1, 8)),
    }
}

/// One that is taken, more often than not; any of the four; at times one that there is not.
pub fn place(random: &mut Random, device: &Device) -> usize {
    let taken: Vec<usize> = (0..PLACES).filter(|&place| device.connections[place].phase != 0).collect();
    match random.below(16) {
        0 => random.pick(NO_PLACES),
        1..=3 => random.below(PLACES),
        _ if taken.is_empty() => random.below(PLACES),
        _ => random.pick(&taken),
    }
}

/// Numbers that are no place: beside the last, and such that their low bits are one.
pub const NO_PLACES: &[usize] = &[
    4,
    5,
    6,
    7,
    8,
    255,
    256,
    257,
    65_536,
    u32::MAX as usize,
    1 << 32,
    (1 << 32) + 1,
    (1 << 32) + 3,
    1 << 63,
    (1 << 63) + 2,
    usize::MAX - 3,
    usize::MAX,
];

pub fn any_random(random: &mut Random) -> u32 {
    let any = random.word();
    random.pick(&[any, any, 0, 1, u32::MAX, 0x498e_4a67])
}

pub fn error_digits(random: &mut Random) -> Vec<u8> {
    let mut digits: Vec<u8> = (0..6).map(|_| random.below(3) as u8).collect();
    match random.below(8) {
        0 => digits.truncate(random.below(6)),
        1 => digits.push(0),
        2 => digits[random.below(6)] = random.pick(&[3, b'0', b'2', 255]),
        _ => (),
    }
    digits
}

/// Around what is left, around the closing age, whole hours, and the ends of the range.
pub fn seconds(random: &mut Random, device: &Device) -> u32 {
    let left = device.own.left;
    let age = device.connections[random.below(PLACES)].age;
    match random.below(8) {
        0 => random.pick(&[0, 1, 2, 3599, 3600, 3601]),
        1 => random.pick(&[u32::MAX, u32::MAX - 1, 359_999_999, 360_000_000, 1 << 31]),
        2 => random.word(),
        3 => (29 + random.below(3) as u32).saturating_sub(age),
        4 => left.saturating_sub(1),
        5 => left,
        6 => left.saturating_add(1),
        _ => random.below(700) as u32,
    }
}
