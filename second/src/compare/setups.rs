//! Set-ups, legal and not.

use super::names;
use super::random::Random;
use crate::face::Lent;
use crate::reference::set_up::LAMP_LIMIT;

pub fn legal(random: &mut Random) -> Lent {
    Lent {
        name: names::legal(random),
        maker: text(random, 32),
        model: text(random, 32),
        other: text(random, 32),
        password: password(random),
        inputs: inputs(random),
        lamps: lamps(random),
        warm: seconds(random),
        cool: seconds(random),
    }
}

pub fn any(random: &mut Random) -> Lent {
    let mut lent = legal(random);
    for _ in 0..random.pick(&[0, 1, 1, 2]) {
        damage(random, &mut lent);
    }
    lent
}

pub fn text(random: &mut Random, longest: usize) -> Vec<u8> {
    let length = random.length_to(longest);
    match random.below(12) {
        0 => random.pick(&[&b"ERR5"[..], b"ERR0", b"err1", b"ERR", b"ERR11", b"OK", b"?"]).to_vec(),
        1 => vec![random.pick(&[0x20, 0x7E, 0x7F, 0x80, 0xFF]); length],
        _ => random.bytes_from(0x20, length),
    }
}

fn password(random: &mut Random) -> Vec<u8> {
    let length = if random.one_in(2) { 0 } else { 8 + random.length_to(24) };
    random.letters_or_digits(length)
}

/// Up to 32 of the 45, in any order.
pub fn inputs(random: &mut Random) -> Vec<u8> {
    let mut all: Vec<[u8; 2]> = all_inputs().chunks_exact(2).map(|input| [input[0], input[1]]).collect();
    let count = random.pick(&[1, 1, 2, 3, 5, 16, 17, 31, 32]);
    for place in 0..count {
        let other = random.from_to(place, all.len() - 1);
        all.swap(place, other);
    }
    all[..count].concat()
}

/// The 45 that there are.
pub fn all_inputs() -> Vec<u8> {
    (b'1'..=b'5').flat_map(|kind| (b'1'..=b'9').flat_map(move |number| [kind, number])).collect()
}

fn lamps(random: &mut Random) -> Vec<u32> {
    let count = random.pick(&[0, 1, 1, 2, 3, 7, 8]);
    (0..count).map(|_| lamp_seconds(random)).collect()
}

/// Around nothing, around whole hours, around the limit, anything.
pub fn lamp_seconds(random: &mut Random) -> u32 {
    match random.below(6) {
        0 => random.below(3) as u32,
        1 => (3600 * random.below(100_000) + random.below(3)).saturating_sub(1) as u32,
        2 => LAMP_LIMIT - random.below(3) as u32,
        3 => LAMP_LIMIT - random.below(5000) as u32,
        4 => 3600 * random.pick(&[1, 9, 10, 99, 100, 999, 1000, 9999, 10_000, 99_999]),
        _ => random.below(LAMP_LIMIT as usize + 1) as u32,
    }
}

fn seconds(random: &mut Random) -> u32 {
    random.pick(&[1, 2, 20, 29, 30, 31, 60, 599, 600])
}

/// One setting that may now be out of its range.
pub fn damage(random: &mut Random, lent: &mut Lent) {
    let which = random.below(5);
    let information = [&mut lent.name, &mut lent.maker, &mut lent.model, &mut lent.other, &mut lent.password];
    let [name, maker, model, other, password] = information;
    let (text, longest) = match which {
        0 => (name, 64),
        1 => (maker, 32),
        2 => (model, 32),
        3 => (other, 32),
        _ => (password, 32),
    };
    match random.below(13) {
        0 => *text = random.bytes_from(0x30, longest + 1),
        1 => *text = random.letters_or_digits(longest + 1),
        2 => *text = random.pick(&[b"ERR1", b"ERR2", b"ERR3", b"ERR4"]).to_vec(),
        3 => {
            let strange = random.pick(&[0x00, 0x0A, 0x0D, 0x1F, 0x20, 0x2F, 0x3A, 0x40, 0x5B, 0x60, 0x7B, 0xC3]);
            let place = random.below(text.len() + 1);
            text.insert(place, strange);
        }
        4 => *text = random.letters_or_digits(random_long(longest)),
        5 => lent.name = names::wrong(random),
        6 => random.damage(&mut lent.inputs),
        7 => damage_inputs(random, &mut lent.inputs),
        8 => lent.lamps.push(lamp_seconds(random)),
        9 | 10 => {
            let length = random.from_to(1, 8);
            lent.password = random.letters_or_digits(length);
        }
        11 => {
            let seconds = random.pick(&[LAMP_LIMIT + 1, LAMP_LIMIT + 2, 360_003_600, u32::MAX]);
            let place = random.below(lent.lamps.len() + 1);
            lent.lamps.insert(place, seconds);
        }
        _ => {
            let seconds = random.pick(&[0, 601, 1000, u32::MAX]);
            if random.one_in(2) { lent.warm = seconds } else { lent.cool = seconds }
        }
    }
}

/// Past a byte's count, so that a length cut to eight bits would look legal.
fn random_long(longest: usize) -> usize {
    256 + longest / 2
}

fn damage_inputs(random: &mut Random, inputs: &mut Vec<u8>) {
    match random.below(5) {
        0 => inputs.clear(),
        1 => inputs.extend_from_within(..inputs.len().min(2)),
        2 => inputs.extend_from_slice(&random.pick(&[*b"10", *b"20", *b"61", *b"69", *b"09", *b"01", *b"1:", *b"a1"])),
        3 => *inputs = all_inputs()[..random.pick(&[66, 68, 90])].to_vec(),
        _ => drop(inputs.pop()),
    }
}
