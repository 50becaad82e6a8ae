//! Stored forms for the logs: devices with lamps of every kind, in each version; and what does not load.

use crate::compare::class_2::{forms as of_class_2, setups as setups_2};
use crate::compare::random::Random;
use crate::compare::{forms, records, setups};
use crate::face::{Act, Lent};
use crate::reference::class::{Texts, names_of};
use crate::reference::form::{Stored, StoredClass, written};
use crate::reference::set_up::LAMP_LIMIT;

/// One in four may not load.
pub fn form(random: &mut Random) -> Vec<u8> {
    match random.below(20) {
        0 => loaded_by_a_host(random, forms::load),
        1 => loaded_by_a_host(random, of_class_2::load),
        2 => {
            let mut form = good(random);
            let length = random.pick(&[1, 1, 4504, 5000, 70_000]);
            form.extend(random.bytes_from(0, length));
            form
        }
        3 => too_long(random),
        4 => {
            let mut form = good(random);
            form[0] = random.pick(&[0, 4, 5, b'1', b'3', 255]);
            form
        }
        _ => good(random),
    }
}

/// As the calls are compared on.
fn loaded_by_a_host(random: &mut Random, load: fn(&mut Random, &crate::face::Device) -> Act) -> Vec<u8> {
    let device = records::legal(random);
    match load(random, &device) {
        Act::Load { bytes } => bytes,
        _ => unreachable!("it loads"),
    }
}

/// A form that loads, in any version.
fn good(random: &mut Random) -> Vec<u8> {
    let of_class_2 = setups_2::legal(random);
    let version = random.below(4);
    let lent = if version == 3 { of_class_2.lent } else { setups::legal(random) };
    let lent = Lent { lamps: lamps(random), warm: seconds(random), cool: seconds(random), ..lent };
    let names = names_of(&of_class_2.names, &of_class_2.name_lengths).expect("they add up");
    let texts = Texts { serial: of_class_2.serial, version: of_class_2.version, names };
    written(&Stored {
        marks: (version > 0).then(|| marks(random, lent.lamps.len())),
        lent,
        class: match version {
            2 => Some(StoredClass { byte: 1, texts: Texts::default() }),
            3 => Some(StoredClass { byte: 2, texts }),
            _ => None,
        },
    })
}

/// Mostly more than one, at times at the limit or just below it.
fn lamps(random: &mut Random) -> Vec<u32> {
    let count = random.pick(&[0, 1, 2, 2, 2, 3, 3, 8]);
    let seconds = |random: &mut Random| match random.below(4) {
        0 => 0,
        1 => LAMP_LIMIT - random.below(700) as u32,
        _ => setups::lamp_seconds(random),
    };
    (0..count).map(|_| seconds(random)).collect()
}

fn seconds(random: &mut Random) -> u32 {
    random.pick(&[1, 1, 2, 3, 20, 29, 30, 31, 45, 600])
}

/// At least one is set where there are lamps.
fn marks(random: &mut Random, lamps: usize) -> Vec<u8> {
    let all = random.one_in(3);
    let mut marks: Vec<u8> = (0..lamps).map(|_| u8::from(all || random.one_in(2))).collect();
    if lamps > 0 && !marks.contains(&1) {
        marks[random.below(lamps)] = 1;
    }
    marks
}

/// Counts over what the rules allow, and longer than any form that loads; whole, cut short or with bytes left over.
fn too_long(random: &mut Random) -> Vec<u8> {
    let inputs = random.pick(&[33, 100, 255]);
    let lamps = random.pick(&[1, 8, 255]);
    let mut form = of_counts(inputs, lamps, random.pick(&[0, 16, 128, 255]));
    match random.below(3) {
        0 => form.truncate(form.len() - random.pick(&[1, 2, 100])),
        1 => form.push(0),
        _ => (),
    }
    form
}

/// Of Class 2, with so many inputs and lamps, and so many bytes in each text.
pub fn of_counts(inputs: usize, lamps: usize, bytes: usize) -> Vec<u8> {
    let text = vec![b'a'; bytes];
    let lent = Lent {
        name: text.clone(),
        maker: text.clone(),
        model: text.clone(),
        other: text.clone(),
        password: text.clone(),
        inputs: b"11".repeat(inputs),
        lamps: vec![0; lamps],
        ..forms::least()
    };
    of_class_2::classed(&lent, 2, &Texts { serial: text.clone(), version: text.clone(), names: vec![text; inputs] })
}
