//! Set-ups of Class 2, legal and not.

use crate::compare::random::Random;
use crate::compare::setups;
use crate::face::{Lent, Lent2};

/// "a serial number or a software version", and "an input's name".
const LONGEST_SERIAL: usize = 32;
const LONGEST_NAME: usize = 128;

pub fn legal(random: &mut Random) -> Lent2 {
    let inputs = inputs(random);
    let names = names(random, inputs.len() / 2);
    let lent = Lent { inputs, ..setups::legal(random) };
    let (serial, version) = (setups::text(random, LONGEST_SERIAL), setups::text(random, LONGEST_SERIAL));
    of(lent, &serial, &version, &names)
}

pub fn of(lent: Lent, serial: &[u8], version: &[u8], names: &[Vec<u8>]) -> Lent2 {
    Lent2 {
        lent,
        serial: serial.to_vec(),
        version: version.to_vec(),
        names: names.concat(),
        name_lengths: names.iter().map(Vec::len).collect(),
    }
}

pub fn any(random: &mut Random) -> Lent2 {
    let mut lent = legal(random);
    for _ in 0..random.pick(&[0, 1, 1, 2]) {
        damage(random, &mut lent);
    }
    lent
}

/// The 210 that there are.
pub fn all_inputs() -> Vec<u8> {
    let numbers = || (b'1'..=b'9').chain(b'A'..=b'Z');
    (b'1'..=b'6').flat_map(|kind| numbers().flat_map(move |number| [kind, number])).collect()
}

/// Up to 32 of the 210, in any order; at times those of Class 1 alone.
pub fn inputs(random: &mut Random) -> Vec<u8> {
    let all = if random.one_in(8) { setups::all_inputs() } else { all_inputs() };
    let mut all: Vec<[u8; 2]> = all.chunks_exact(2).map(|input| [input[0], input[1]]).collect();
    let count = random.pick(&[1, 1, 2, 3, 5, 16, 17, 31, 32]);
    for place in 0..count {
        let other = random.from_to(place, all.len() - 1);
        all.swap(place, other);
    }
    all[..count].concat()
}

/// So many: none with anything in it, all as long as they may be, or any.
pub fn names(random: &mut Random, count: usize) -> Vec<Vec<u8>> {
    match random.below(8) {
        0 => vec![Vec::new(); count],
        1 => (0..count).map(|_| random.bytes_from(0x20, LONGEST_NAME)).collect(),
        _ => (0..count).map(|_| setups::text(random, LONGEST_NAME)).collect(),
    }
}

/// One setting that may now be out of its range.
fn damage(random: &mut Random, lent: &mut Lent2) {
    match random.below(12) {
        0..=2 => {
            let text = if random.one_in(2) { &mut lent.serial } else { &mut lent.version };
            *text = wrong(random, text, LONGEST_SERIAL);
        }
        3..=5 => damage_name(random, lent),
        6 => damage_lengths(random, &mut lent.names, &mut lent.name_lengths),
        7 => damage_inputs(random, lent),
        _ => setups::damage(random, &mut lent.lent),
    }
}

/// Too long, also by what eight bits count; a refusal; a byte that is not allowed.
pub fn wrong(random: &mut Random, text: &[u8], longest: usize) -> Vec<u8> {
    match random.below(5) {
        0 => random.bytes_from(0x20, longest + 1),
        1 => random.bytes_from(0x20, 256 + longest / 2),
        2 => random.pick(&[b"ERR1", b"ERR2", b"ERR3", b"ERR4"]).to_vec(),
        _ => {
            let mut text = text.to_vec();
            let place = random.below(text.len() + 1);
            text.insert(place, random.pick(&[0x00, 0x0A, 0x0D, 0x1F, 0x20, 0xFF]));
            text
        }
    }
}

/// One name that may be out of its range, one too few or one too many.
fn damage_name(random: &mut Random, lent: &mut Lent2) {
    let mut rest = &lent.names[..];
    let mut names: Vec<Vec<u8>> = Vec::new();
    for &length in &lent.name_lengths {
        let (name, after) = rest.split_at(length.min(rest.len()));
        names.push(name.to_vec());
        rest = after;
    }
    let place = random.below(names.len().max(1));
    match random.below(8) {
        0 => drop(names.pop()),
        1 => names.push(setups::text(random, LONGEST_NAME)),
        2 => names.push(Vec::new()),
        3 => names.clear(),
        _ if names.is_empty() => (),
        _ => names[place] = wrong(random, &names[place], LONGEST_NAME),
    }
    lent.names = names.concat();
    lent.name_lengths = names.iter().map(Vec::len).collect();
}

/// Lengths that do not add up, or only modulo 2^64 or 2^32; bytes for which there are no lengths.
fn damage_lengths(random: &mut Random, names: &mut Vec<u8>, lengths: &mut [usize]) {
    let Some(last) = lengths.len().checked_sub(1) else { return names.push(random.byte()) };
    let place = random.below(lengths.len());
    match random.below(8) {
        0 => lengths[place] = lengths[place].wrapping_add(1),
        1 => lengths[place] = lengths[place].wrapping_sub(1),
        2 => lengths[place] = lengths[place].wrapping_add(random.pick(&[256, 1 << 32, 1 << 63])),
        3 => {
            let more = random.pick(&[1 << 63, usize::MAX, usize::MAX - 128]);
            lengths[0] = lengths[0].wrapping_add(more);
            lengths[last] = lengths[last].wrapping_sub(more);
        }
        4 => {
            lengths[0] = lengths[0].wrapping_add(1);
            lengths[last] = lengths[last].wrapping_sub(1);
        }
        5 => names.push(random.byte()),
        6 => drop(names.pop()),
        _ => names.clear(),
    }
}

/// Each with a name of its own, so that the input alone is wrong.
fn damage_inputs(random: &mut Random, lent: &mut Lent2) {
    let wrong = *b"10 16A 1a 6z 7A 0A 6@ 6[ 6: 6/ A1 AA 1\xC1 61 11";
    let wrong: Vec<&[u8]> = wrong.split(|&byte| byte == b' ').collect();
    let input = random.pick(&wrong).to_vec();
    let count = lent.lent.inputs.len() / 2;
    match random.below(4) {
        0 if count > 0 => {
            let place = 2 * random.below(count);
            lent.lent.inputs[place..place + 2].copy_from_slice(&input[..2]);
        }
        1 if count > 0 => {
            let twice = 2 * random.below(count);
            lent.lent.inputs.extend_from_within(twice..twice + 2);
            lent.name_lengths.push(0);
        }
        2 => {
            let count = random.pick(&[33, 34, 210]);
            lent.lent.inputs = all_inputs()[..2 * count].to_vec();
            lent.names.clear();
            lent.name_lengths = vec![0; count];
        }
        _ => {
            lent.lent.inputs.extend(input);
            lent.name_lengths.push(0);
        }
    }
}
