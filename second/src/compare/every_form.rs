//! Stored forms (RULES, Stored form) that leave nothing to chance. `forms` has the random ones.

use super::forms::{common, least, most, of, old};
use super::random::Random;
use super::setups::all_inputs;
use crate::face::{Act, Device, Lent};
use crate::reference::calls;
use crate::reference::rules::unmistaken;
use crate::reference::set_up::LAMP_LIMIT;

/// Of three forms, in both versions: each byte replaced, each prefix, bytes left over, each version. Then each count
/// with all that it counts, each character of an input, numbers at their edges.
pub fn loads(random: &mut Random) -> Vec<Vec<u8>> {
    let mut all = vec![Vec::new()];
    for form in [least(), common(), most()].iter().flat_map(|lent| [of(lent), old(lent)]) {
        (0..=form.len()).for_each(|end| all.push(form[..end].to_vec()));
        for place in 0..form.len() {
            all.extend(other_bytes(form[place]).into_iter().map(|byte| with_byte(&form, place, byte)));
        }
        for version in 0..=255 {
            all.push(with_byte(&form, 0, version));
            all.push(vec![version]);
        }
        for length in [1, 2, 3, 4, 14, 255, 256, 257, 65_536] {
            all.push([&form[..], &vec![0; length]].concat());
            all.push([form.clone(), random.memory(length)].concat());
        }
        all.push([&form[..], &form].concat());
    }
    all.extend(every_count());
    all.extend(every_content());
    all
}

fn other_bytes(byte: u8) -> Vec<u8> {
    let near = [byte.wrapping_add(1), byte.wrapping_sub(1), byte ^ 0x80, byte ^ 0x20];
    let fixed = [0, 1, b'\r', 0x1F, b'0', b'9', 0x80, 0xFF];
    [&near[..], &fixed].concat().into_iter().filter(|&other| other != byte).collect()
}

fn with_byte(form: &[u8], place: usize, byte: u8) -> Vec<u8> {
    let mut changed = form.to_vec();
    changed[place] = byte;
    changed
}

/// Each section at each count that a byte has, with what it counts: whole; cut, and with a byte left over, where the
/// name before it is not legal.
fn every_count() -> Vec<Vec<u8>> {
    let mut all = Vec::new();
    for count in 0..=255 {
        let text = vec![b'A'; count];
        let inputs = all_inputs().into_iter().cycle().take(2 * count).collect();
        let lents = [
            Lent { name: text.clone(), ..common() },
            Lent { maker: text.clone(), ..common() },
            Lent { model: text.clone(), ..common() },
            Lent { other: text.clone(), ..common() },
            Lent { password: text.clone(), ..common() },
            Lent { inputs, ..common() },
            Lent { lamps: vec![1; count], ..common() },
        ];
        all.extend(lents.iter().map(of));
        for lent in lents {
            let wrong = of(&Lent { name: b"\xFF".to_vec(), ..lent });
            all.push(wrong[..wrong.len() - 1].to_vec());
            all.push([&wrong[..], b"\0"].concat());
        }
    }
    let every = vec![b'A'; 255];
    let inputs = vec![b'1'; 510];
    let texts = Lent { name: every.clone(), maker: every.clone(), model: every.clone(), ..common() };
    all.push(of(&Lent { other: every.clone(), password: every, inputs, lamps: vec![u32::MAX; 255], ..texts }));
    all
}

/// Each byte as each character of an input, an input twice, lamp seconds, W and C at their edges.
fn every_content() -> Vec<Vec<u8>> {
    let mut all = Vec::new();
    for byte in 0..=255 {
        all.push(Lent { inputs: vec![byte, b'1'], ..common() });
        all.push(Lent { inputs: vec![b'1', byte], ..common() });
    }
    all.push(Lent { inputs: b"1111".to_vec(), ..common() });
    all.push(Lent { inputs: b"115932115".to_vec(), ..common() });
    for seconds in [0, 1, 255, 256, 65_535, 65_536, (1 << 24) - 1, 1 << 24, LAMP_LIMIT - 1, LAMP_LIMIT] {
        all.push(Lent { lamps: vec![seconds], ..common() });
    }
    for place in 0..8 {
        for seconds in [LAMP_LIMIT, LAMP_LIMIT + 1, 1 << 31, u32::MAX] {
            let mut lamps = vec![7; 8];
            lamps[place] = seconds;
            all.push(Lent { lamps, ..common() });
        }
    }
    for seconds in [0, 1, 2, 255, 256, 257, 511, 512, 599, 600, 601, 768, 1024, 32_768, 65_535] {
        all.push(Lent { warm: seconds, ..common() });
        all.push(Lent { cool: seconds, ..common() });
    }
    for text in [&b"ERR1"[..], b"ERR4", b"ERR5", b"\x1F", b"\0", b"\x20", b"\xFF"] {
        all.push(Lent { name: text.to_vec(), ..common() });
        all.push(Lent { maker: text.to_vec(), ..common() });
        all.push(Lent { model: text.to_vec(), ..common() });
        all.push(Lent { other: text.to_vec(), ..common() });
        all.push(Lent { password: text.to_vec(), ..common() });
    }
    all.iter().map(of).collect()
}

/// A megabyte: rubbish, a form with it after it, counts of 255 all over.
pub fn long_loads(random: &mut Random) -> Vec<Vec<u8>> {
    let length = (1 << 20) + random.below(100);
    let rubbish = random.memory(length);
    vec![
        [of(&common()), rubbish.clone()].concat(),
        [&[1], &rubbish[..]].concat(),
        [&[2], &rubbish[..]].concat(),
        rubbish,
        [&[1], &vec![0xFF; length][..]].concat(),
        [&[2], &vec![0xFF; length][..]].concat(),
        vec![1; length],
        vec![0; length],
    ]
}

/// Stores of three records, legal and then not, into memory of each length.
pub fn stores(random: &mut Random) -> Vec<(Device, Act)> {
    let mut all = Vec::new();
    for lent in [least(), common(), most()] {
        let fresh = unmistaken(|| calls::set_up(&lent)).device;
        let mut illegal = fresh;
        illegal.own.errors[0] = 3;
        for length in 0..=of(&lent).len() + 2 {
            let memory = random.memory(length);
            all.push((fresh, Act::Store { lent: memory.clone() }));
            all.push((illegal, Act::Store { lent: memory }));
        }
    }
    all.push((Device::BLANK, Act::Store { lent: Vec::new() }));
    all
}
