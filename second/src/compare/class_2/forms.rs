//! Stored forms of version 3, of both classes, and what a board that knows it makes of the older ones.

use super::setups;
use crate::compare::forms::stored;
use crate::compare::random::Random;
use crate::face::{Act, Device, Lent, Lent2};
use crate::reference::class::{Texts, names_of};
use crate::reference::form::{LONGEST, Stored, StoredClass, written};
use crate::reference::rules::unmistaken;

/// The form of settings, legal or not, with every mark set, whatever mistake is made. Lengths that do not fit have no
/// form: then there are no names.
pub fn of(lent: &Lent2) -> Vec<u8> {
    let names = names_of(&lent.names, &lent.name_lengths).unwrap_or_default();
    classed(&lent.lent, 2, &Texts { serial: lent.serial.clone(), version: lent.version.clone(), names })
}

/// With this byte for its class, and where it is 2 these texts.
pub fn classed(lent: &Lent, byte: u8, texts: &Texts) -> Vec<u8> {
    let marks = Some(vec![1; lent.lamps.len()]);
    let class = Some(StoredClass { byte, texts: texts.clone() });
    unmistaken(|| written(&Stored { lent: lent.clone(), marks, class }))
}

/// The shortest form of Class 2.
pub fn least() -> Lent2 {
    setups::of(crate::compare::forms::least(), b"", b"", &[Vec::new()])
}

/// Three inputs, two of them in no set-up of Class 1.
pub fn common() -> Lent2 {
    let lent = Lent { inputs: b"116A5Z".to_vec(), ..crate::compare::forms::common() };
    setups::of(lent, b"S/N 7", b"1.4\xFF", &[b"RGB".to_vec(), Vec::new(), "内蔵".as_bytes().to_vec()])
}

/// Every section as long as it may be.
pub fn most() -> Lent2 {
    let inputs = setups::all_inputs();
    let lent = Lent { inputs: inputs[inputs.len() - 64..].to_vec(), ..crate::compare::forms::most() };
    let names: Vec<Vec<u8>> = (0..32).map(|place| vec![b'A' + place; 128]).collect();
    setups::of(lent, &[b's'; 32], &[0xFF; 32], &names)
}

/// Memory around what the record's form takes, around what the longest takes, or none.
pub fn store(random: &mut Random, device: &Device) -> Act {
    let taken = stored(device).map_or(LONGEST, |form| form.len());
    let length = match random.below(12) {
        0 => 0,
        1 => random.below(taken),
        2 => random.pick(&[LONGEST - 1, LONGEST, LONGEST + 1, 136, 309, 310]),
        3 => taken - 1,
        4 => random.from_to(taken, LONGEST + 1),
        _ => taken,
    };
    Act::Store { lent: random.memory(length) }
}

/// What a host loads after this record: its own form more often than not, or another's; as it is, or with something
/// wrong.
pub fn load(random: &mut Random, device: &Device) -> Act {
    let own = stored(device).filter(|_| !random.one_in(4));
    let mut bytes = own.unwrap_or_else(|| of(&setups::any(random)));
    match random.below(20) {
        0..=5 => (),
        6 => bytes = of(&setups::any(random)),
        7 => (0..random.pick(&[1, 1, 4])).for_each(|_| random.damage(&mut bytes)),
        8 => bytes.truncate(random.below(bytes.len())),
        9 => bytes.truncate(bytes.len() - 1),
        10 => {
            let length = random.pick(&[1, 1, 2, 40, 300]);
            bytes.extend(random.bytes_from(0, length));
        }
        11 => bytes[0] = random.pick(&[0, 1, 2, 4, 5, 51, 131, 255]),
        12 | 13 => bytes = other_class(random),
        14 | 15 => bytes = older(random),
        16 => {
            // a byte after the class, where texts and names are counted
            let texts = stored_without_texts(device).min(bytes.len() - 1);
            let place = random.from_to(texts, bytes.len() - 1);
            let any = random.byte();
            bytes[place] = random.pick(&[0, 1, 2, 31, 32, 33, 127, 128, 129, 255, any]);
        }
        _ => {
            let place = random.below(bytes.len());
            bytes[place] = random.byte();
        }
    }
    Act::Load { bytes }
}

/// The length of a record's form up to its class.
fn stored_without_texts(device: &Device) -> usize {
    let names = device.settings.names.iter().take(device.settings.input_count).map(|name| 1 + name.len);
    let texts = 2 + device.settings.serial.len + device.settings.version.len + names.sum::<usize>();
    stored(device).map_or(0, |form| form.len().saturating_sub(texts))
}

/// Settings of either class under another's byte, with texts or without, cut or lengthened.
fn other_class(random: &mut Random) -> Vec<u8> {
    let lent = setups::any(random);
    let any = random.byte();
    let byte = random.pick(&[0, 1, 1, 1, 2, 3, 255, any]);
    let names = names_of(&lent.names, &lent.name_lengths).unwrap_or_default();
    let texts = Texts { serial: lent.serial, version: lent.version, names };
    let mut bytes = classed(&lent.lent, byte, &texts);
    match random.below(6) {
        0 => bytes.push(random.pick(&[0, 1, 2])),
        1 => drop(bytes.pop()),
        2 => {
            // texts after a byte that has none
            let with_texts = classed(&lent.lent, 2, &texts);
            bytes.truncate(classed(&lent.lent, 1, &texts).len());
            bytes.extend(&with_texts[bytes.len()..]);
        }
        _ => (),
    }
    bytes
}

/// Of version 1 or 2, with inputs of either class.
fn older(random: &mut Random) -> Vec<u8> {
    let lent = if random.one_in(2) { setups::any(random).lent } else { crate::compare::setups::legal(random) };
    let marks = random.one_in(2).then(|| vec![1; lent.lamps.len()]);
    let mut bytes = unmistaken(|| written(&Stored { lent, marks, class: None }));
    match random.below(6) {
        0 => bytes.push(random.pick(&[1, 2])),
        1 => drop(bytes.pop()),
        2 => random.damage(&mut bytes),
        _ => (),
    }
    bytes
}
