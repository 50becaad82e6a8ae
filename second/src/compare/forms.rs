//! Stored forms (RULES, Stored form): of records in every state; damaged, cut and lengthened in every place; and bytes
//! that are none.

use super::random::Random;
use super::{records, setups};
use crate::face::{Act, Device, Lent};
use crate::reference::form::{self, LONGEST_MARKED as LONGEST, Stored, written};
use crate::reference::rules::unmistaken;
use crate::reference::set_up::{LAMP_LIMIT, MOST_INPUTS};
use crate::reference::swap;

/// Enough memory for every form of version 2.
pub const ROOM: usize = LONGEST;

/// The sections of a form: how many there are, and what one of each one's count takes. The last, the marks, are not in
/// version 1.
const SIZES: [usize; 8] = [1, 1, 1, 1, 1, 2, 4, 1];

/// The form of settings, legal or not, with every mark set, whatever mistake is made.
pub fn of(lent: &Lent) -> Vec<u8> {
    marked(lent, &vec![1; lent.lamps.len()])
}

/// With these bytes for marks, legal or not.
pub fn marked(lent: &Lent, marks: &[u8]) -> Vec<u8> {
    unmistaken(|| written(&Stored { lent: lent.clone(), marks: Some(marks.to_vec()), class: None }))
}

/// What a record stores.
pub fn stored_of(device: &Device) -> Vec<u8> {
    let mut form = vec![0; form::LONGEST];
    let length = unmistaken(|| swap::store(device, &mut form)).length;
    form.truncate(length);
    form
}

/// Of version 1, which has no marks.
pub fn old(lent: &Lent) -> Vec<u8> {
    unmistaken(|| written(&Stored { lent: lent.clone(), marks: None, class: None }))
}

/// The shortest form that there is.
pub fn least() -> Lent {
    Lent { inputs: b"11".to_vec(), warm: 1, cool: 1, ..Lent::default() }
}

/// A name in Japanese, three inputs, two lamps.
pub fn common() -> Lent {
    Lent {
        name: "裁断台 3".as_bytes().to_vec(),
        maker: b"maker".to_vec(),
        model: b"\xB5\xFF".to_vec(),
        other: b"ERR5".to_vec(),
        password: b"Schnitt8".to_vec(),
        inputs: b"113259".to_vec(),
        lamps: vec![3_600, 0x0102_0304],
        warm: 20,
        cool: 0x0102,
    }
}

/// Every section as long as it may be.
pub fn most() -> Lent {
    Lent {
        name: ["台".repeat(21).as_bytes(), b"3"].concat(),
        maker: vec![b'm'; 32],
        model: vec![0xFF; 32],
        other: vec![b' '; 32],
        password: vec![b'z'; 32],
        inputs: setups::all_inputs()[..2 * MOST_INPUTS].to_vec(),
        lamps: vec![LAMP_LIMIT; 8],
        warm: 600,
        cool: 600,
    }
}

/// Where the counts of a form stand, as far as it goes.
fn counts(form: &[u8]) -> Vec<usize> {
    let mut places = vec![1];
    let sections = if form.first() == Some(&1) { 7 } else { 8 };
    for size in &SIZES[..sections] {
        let here = places[places.len() - 1];
        match form.get(here) {
            Some(&count) if here + 1 < form.len() => places.push(here + 1 + size * usize::from(count)),
            _ => break,
        }
    }
    places.pop();
    places
}

/// Memory around what the record's form takes, around what the longest takes, or none.
pub fn store(random: &mut Random, device: &Device) -> Act {
    let taken = stored(device).map_or(LONGEST, |form| form.len());
    let length = match random.below(12) {
        0 => 0,
        1 => random.below(taken),
        2 => random.pick(&[LONGEST - 1, LONGEST, LONGEST + 1, 136]),
        3 => taken - 1,
        4 => random.from_to(taken, taken.max(2 * LONGEST)),
        _ => taken,
    };
    Act::Store { lent: random.memory(length) }
}

/// The form of a record, if it is legal.
pub fn stored(device: &Device) -> Option<Vec<u8>> {
    let mut out = [0; form::LONGEST];
    let written = unmistaken(|| swap::store(device, &mut out));
    (written.number == 0).then(|| out[..written.length].to_vec())
}

/// What a host loads after this record: its own form more often than not, or another's; as it is, or with something
/// wrong.
pub fn load(random: &mut Random, device: &Device) -> Act {
    let mut bytes = match stored(device) {
        Some(own) if !random.one_in(4) => own,
        _ => of(&setups::any(random)),
    };
    match random.below(24) {
        0..=6 => (),
        7 => bytes = of(&setups::any(random)),
        8 => random.damage(&mut bytes),
        9 => (0..4).for_each(|_| random.damage(&mut bytes)),
        10 => bytes.truncate(random.below(bytes.len())),
        11 => {
            let length = random.pick(&[1, 1, 2, 40, 300]);
            bytes.extend(random.bytes_from(0, length));
        }
        12 | 13 => change_count(random, &mut bytes),
        14 => bytes[0] = random.pick(&[0, 1, 3, 4, 50, 130, 255]),
        15 => {
            bytes[0] = random.pick(&[0, 1, 3, 255]);
            random.damage(&mut bytes);
        }
        16 => bytes = rubbish(random),
        17 => {
            let wrong = setups::any(random);
            bytes = of(&Lent { warm: random.pick(&[0, 601, 256]), ..wrong });
            bytes.truncate(random.below(bytes.len()) + 1);
        }
        18 => {
            let wrong = setups::any(random);
            bytes = of(&Lent { cool: random.pick(&[0, 601, 256]), ..wrong });
            bytes.push(random.byte());
        }
        19..=21 => bytes = any_marks(random),
        _ => {
            let place = random.below(bytes.len());
            bytes[place] = random.byte();
        }
    }
    Act::Load { bytes }
}

/// Marks of any kind, as many as lamps or nearly; or a form of version 1, as it is or with something wrong.
fn any_marks(random: &mut Random) -> Vec<u8> {
    let lent = if random.one_in(3) { setups::any(random) } else { setups::legal(random) };
    if random.one_in(3) {
        let mut bytes = old(&lent);
        if random.one_in(2) {
            random.damage(&mut bytes);
        }
        return bytes;
    }
    let highest = random.pick(&[0, 1, 1, 1, 2, 255]);
    let mut marks: Vec<u8> = lent.lamps.iter().map(|_| random.from_to(0, highest) as u8).collect();
    match random.below(8) {
        0 => drop(marks.pop()),
        1 => marks.push(1),
        _ => (),
    }
    let mut bytes = marked(&lent, &marks);
    if random.one_in(6) {
        bytes.truncate(bytes.len() - random.from_to(1, 6));
    }
    bytes
}

/// One count that is not what stands after it.
fn change_count(random: &mut Random, form: &mut [u8]) {
    let places = counts(form);
    let place = random.pick(&places);
    let (count, any) = (form[place], random.byte());
    form[place] = random.pick(&[0, 1, count.wrapping_add(1), count.wrapping_sub(1), 32, 33, 64, 65, 128, 255, any]);
}

/// Bytes of several lengths, mostly with a version that is known.
fn rubbish(random: &mut Random) -> Vec<u8> {
    let length = random.pick(&[1, 2, 7, 14, 15, 16, 60, 268, 308, 309, 310, 1000, 2817, 4096]);
    let highest = random.pick(&[0, 3, 40, 255]);
    let mut bytes: Vec<u8> = (0..length).map(|_| random.from_to(0, highest) as u8).collect();
    if !random.one_in(4) {
        bytes[0] = random.pick(&[1, 2]);
    }
    bytes
}

/// A record to store, in any state; now and then one that is not legal.
pub fn record(random: &mut Random) -> Device {
    if random.one_in(6) { records::damaged(random) } else { records::legal(random) }
}
