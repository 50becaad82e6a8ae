//! What Class 2 adds to a set-up, a record and a stored form, leaving nothing to chance.

use super::every_line::opened;
use super::forms::{classed, common, least, most, of};
use super::setups::{self, all_inputs};
use crate::compare::forms::{marked, old};
use crate::compare::random::Random;
use crate::compare::records::NO_FLAGS;
use crate::compare::{forms, records, setups as setups_1};
use crate::face::{Act, Device, Flag, Lent, Lent2, Text};
use crate::reference::calls;
use crate::reference::class::{Texts, names_of};
use crate::reference::rules::unmistaken;

/// Settings lent to both set-ups and told of, in forms of all versions and both classes, and in records.
pub fn calls(random: &mut Random) -> Vec<(Device, Act)> {
    let mut all = Vec::new();
    for lent in inputs() {
        all.push((Device::BLANK, Act::SetUp(lent.lent.clone())));
        all.push((Device::BLANK, Act::WhichSetting(lent.lent.clone())));
        for bytes in [marked(&lent.lent, &[1, 1]), old(&lent.lent), classed(&lent.lent, 1, &Texts::default())] {
            all.push((Device::BLANK, Act::Load { bytes }));
        }
        let mut device = opened(2);
        if lent.lent.inputs.len() <= 64 {
            super::records::set_inputs(&mut device, &lent.lent.inputs, &[]);
            all.push((device, Act::Legal));
            device.settings.class_number = 1;
            (device.settings.serial, device.settings.version) = (Text::EMPTY, Text::EMPTY);
            all.push((device, Act::Legal));
        }
        all.extend(lent_and_loaded(lent));
    }
    texts().into_iter().chain(lists()).for_each(|lent| all.extend(lent_and_loaded(lent)));
    short_passwords(random).into_iter().chain(two_wrong(random)).for_each(|lent| all.extend(lent_and_loaded(lent)));
    all
}

fn lent_and_loaded(lent: Lent2) -> [(Device, Act); 3] {
    let bytes = of(&lent);
    let lent = Box::new(lent);
    [Act::SetUp2(lent.clone()), Act::WhichSetting2(lent), Act::Load { bytes }].map(|act| (Device::BLANK, act))
}

fn named(inputs: &[u8]) -> Lent2 {
    let names = vec![b"n".to_vec(); inputs.len() / 2];
    setups::of(Lent { inputs: inputs.to_vec(), ..common().lent }, b"s", b"v", &names)
}

/// Each byte as one of the two characters, each of the 210, every count of them, one twice.
fn inputs() -> Vec<Lent2> {
    let mut all = Vec::new();
    for byte in 0..=255 {
        let inputs = [[byte, b'1'], [byte, b'A'], [b'1', byte], [b'6', byte]];
        all.extend(inputs.map(|input| named(&[b"21", &input[..]].concat())));
    }
    all.extend(all_inputs().chunks(2).map(named));
    for count in 0..=40 {
        all.push(named(&all_inputs()[..2 * count]));
        all.push(named(&all_inputs()[2 * (210 - count)..]));
    }
    all.extend([&b"6A6A"[..], b"11A", b"1A1B1A", b"6A6a", b"6"].map(named));
    all
}

/// Serial number, software version and a name at every length up to some past the most, with bytes at the edges, alone
/// and beside others; the four refusals and what is beside them.
fn texts() -> Vec<Lent2> {
    let mut all = Vec::new();
    let mut with = |text: &[u8]| {
        let Lent2 { lent, serial, version, .. } = common();
        let names = [b"RGB".to_vec(), Vec::new(), vec![0xFF; 128]];
        all.push(setups::of(lent.clone(), text, &version, &names));
        all.push(setups::of(lent.clone(), &serial, text, &names));
        for place in 0..3 {
            let mut names = names.clone();
            names[place] = text.to_vec();
            all.push(setups::of(lent.clone(), &serial, &version, &names));
        }
    };
    (0..=140).chain([255]).for_each(|length| with(&vec![b'A'; length]));
    (0..=255).for_each(|byte| with(&[byte]));
    (0..=255).for_each(|byte| with(&[b'A', byte, b'z']));
    for text in ["ERR", "ERR0", "ERR1", "ERR2", "ERR3", "ERR4", "ERR5", "ERRA", "err1", "ERR1 ", " ERR1", "ERR11", "OK"]
    {
        with(text.as_bytes());
    }
    all
}

/// Names that are not one an input, and lengths that do not add up to their bytes: by one, by what fewer bits count, or
/// so that the sum passes 64 bits.
fn lists() -> Vec<Lent2> {
    let mut all = Vec::new();
    for (inputs, names) in (0..=34_usize).flat_map(|inputs| [0, 1, 2, 31, 32, 33].map(move |names| (inputs, names))) {
        for count in [names, inputs, inputs + 1, inputs.saturating_sub(1)] {
            let lent = Lent { inputs: all_inputs()[..2 * inputs].to_vec(), ..common().lent };
            all.push(setups::of(lent, b"", b"", &vec![b"name".to_vec(); count]));
        }
    }
    let three =
        |names: &[u8], lengths: [usize; 3]| Lent2 { names: names.to_vec(), name_lengths: lengths.to_vec(), ..common() };
    for lengths in [[0, 0, 0], [1, 1, 1], [3, 0, 0], [0, 0, 3], [0, 3, 0], [1, 1, 2], [1, 1, 0], [4, 0, 0], [2, 0, 0]] {
        all.push(three(b"abc", lengths));
    }
    for more in [256, 1 << 16, 1 << 32, 1 << 63, usize::MAX, usize::MAX - 2] {
        for (place, other) in [(0, 1), (1, 2), (2, 0)] {
            let mut lengths = [1, 1, 1];
            lengths[place] = more;
            all.push(three(b"abc", lengths));
            lengths[other] = 3_usize.wrapping_sub(more).wrapping_sub(1);
            all.push(three(b"abc", lengths));
        }
    }
    for length in [127, 128, 129, 255, 256, 257, 384] {
        all.push(three(&vec![b'n'; 3 * length], [length; 3]));
        all.push(three(&vec![b'n'; length], [length, 0, 0]));
        all.push(three(&vec![b'n'; length], [0, 0, length]));
    }
    all
}

/// A short password is 8 where all else is in range, and 3 beside anything that is not.
fn short_passwords(random: &mut Random) -> Vec<Lent2> {
    let mut all = Vec::new();
    for length in 0..=9 {
        let mut lent = common();
        lent.lent.password = random.letters_or_digits(length);
        let wrong = [
            Lent2 { serial: vec![b's'; 33], ..lent.clone() },
            Lent2 { version: b"ERR1".to_vec(), ..lent.clone() },
            Lent2 { names: b"\x1F".to_vec(), name_lengths: vec![0, 0, 1], ..lent.clone() },
            Lent2 { name_lengths: vec![0, 0, 0], ..lent.clone() },
            Lent2 { names: Vec::new(), name_lengths: vec![0, 0], ..lent.clone() },
            Lent2 { lent: Lent { inputs: b"116A5z".to_vec(), ..lent.lent.clone() }, ..lent.clone() },
            Lent2 { lent: Lent { cool: 0, ..lent.lent.clone() }, ..lent.clone() },
        ];
        all.extend(wrong);
        all.push(lent);
    }
    all
}

/// Each setting out of its range, in two ways the names, alone and beside each other one: with no password, with one that
/// is short and one that is not.
fn two_wrong(random: &mut Random) -> Vec<Lent2> {
    let breaks: [fn(&mut Lent2); 13] = [
        |lent| lent.lent.name = b"\xFF".to_vec(),
        |lent| lent.lent.maker = b"ERR1".to_vec(),
        |lent| lent.lent.model = vec![b' '; 33],
        |lent| lent.lent.other = b"\x1F".to_vec(),
        |lent| lent.lent.password = b"seven-7".to_vec(),
        |lent| lent.lent.inputs = b"116A5z".to_vec(),
        |lent| lent.lent.lamps = vec![0; 9],
        |lent| lent.lent.warm = 0,
        |lent| lent.lent.cool = 601,
        |lent| lent.serial = vec![b's'; 33],
        |lent| lent.version = b"ERR4".to_vec(),
        |lent| (lent.names, lent.name_lengths) = (Vec::new(), vec![0, 0]),
        |lent| (lent.names, lent.name_lengths) = (b"n".to_vec(), vec![0, 0, 0]),
    ];
    let mut all = Vec::new();
    for length in [0, 7, 8] {
        let mut lent = common();
        lent.lent.password = random.letters_or_digits(length);
        for (first, second) in (0..breaks.len()).flat_map(|first| (0..=first).map(move |second| (first, second))) {
            let mut lent = lent.clone();
            breaks[first](&mut lent);
            breaks[second](&mut lent);
            all.push(lent);
        }
    }
    all
}

/// Three forms of Class 2 and one of Class 1: each byte replaced, each prefix, bytes left over, each version, each byte for
/// the class.
pub fn loads(random: &mut Random) -> Vec<Vec<u8>> {
    let in_class_1 = classed(&forms::common(), 1, &Texts::default());
    let mut all = Vec::new();
    for form in [of(&least()), of(&common()), in_class_1, of(&most())] {
        (0..=form.len()).for_each(|end| all.push(form[..end].to_vec()));
        for place in 0..form.len() {
            // what 128 bytes of a name hold, each in its turn
            let few = form.len() > 1000 && place > 400 && form[place] == form[place - 1];
            let others = [form[place].wrapping_add(1), form[place].wrapping_sub(1), 0, 1, b'0', b'A', b'Z', b'a', 0xFF];
            let others = if few { &[0x1F, 0xFF][..] } else { &others };
            all.extend(others.iter().map(|&byte| with_byte(&form, place, byte)));
        }
        all.extend((0..=255).map(|version| with_byte(&form, 0, version)));
        for length in [1, 2, 3, 255, 256, 65_536] {
            all.push([form.clone(), random.memory(length)].concat());
        }
        all.push([&form[..], &form].concat());
    }
    all.extend(every_class());
    all.extend(every_count());
    all
}

fn with_byte(form: &[u8], place: usize, byte: u8) -> Vec<u8> {
    let mut changed = form.to_vec();
    changed[place] = byte;
    changed
}

/// Each byte for the class of settings of each class: alone, with the texts of Class 2 after it, one byte fewer and one
/// more; also where other contents are wrong.
fn every_class() -> Vec<Vec<u8>> {
    let mut all = Vec::new();
    let Lent2 { lent, serial, version, names, name_lengths } = common();
    let texts = Texts { serial, version, names: names_of(&names, &name_lengths).unwrap() };
    let wrong = Lent { name: b"\xFF".to_vec(), ..lent.clone() };
    for lent in [forms::common(), lent, wrong] {
        let (short, long) = (classed(&lent, 1, &texts), classed(&lent, 2, &texts));
        for byte in 0..=255 {
            for form in [&short, &long] {
                let form = with_byte(form, short.len() - 1, byte);
                all.push(form[..form.len() - 1].to_vec());
                all.push([&form[..], b"\0"].concat());
                all.push(form);
            }
        }
    }
    all
}

/// Each text at each count that a byte has, with what it counts: whole, cut and with a byte left over; each count of
/// inputs with as many names, one fewer and one more.
fn every_count() -> Vec<Vec<u8>> {
    let mut all = Vec::new();
    let lent = common().lent;
    for count in 0..=255 {
        let text = vec![b'A'; count];
        let short = || vec![b"n".to_vec(); 3];
        let mut with_name = short();
        with_name[count % 3] = text.clone();
        let inputs = setups_1::all_inputs().into_iter().cycle().take(2 * count).collect();
        let lents = [
            (lent.clone(), Texts { serial: text.clone(), version: Vec::new(), names: short() }),
            (lent.clone(), Texts { serial: Vec::new(), version: text, names: short() }),
            (lent.clone(), Texts { names: with_name, ..Texts::default() }),
            (Lent { inputs, ..lent.clone() }, Texts { names: vec![b"n".to_vec(); count], ..Texts::default() }),
        ];
        for (lent, texts) in lents {
            let form = classed(&lent, 2, &texts);
            all.push(form[..form.len() - 1].to_vec());
            all.push([&form[..], b"\0"].concat());
            all.push(form);
        }
    }
    all
}

/// Stores of records of both classes, legal and then not, into memory of each length up to two more than it takes; of the
/// longest, into the shortest and the longest of these.
pub fn stores(random: &mut Random) -> Vec<(Device, Act)> {
    let mut all = Vec::new();
    for lent in [least(), common(), most()] {
        for class in [1, 2] {
            let fresh = unmistaken(|| match class {
                1 => calls::set_up(&Lent { inputs: b"1159".to_vec(), ..lent.lent.clone() }),
                _ => calls::set_up_2(&lent),
            });
            let device = fresh.device;
            let mut illegal = device;
            illegal.own.speaker = 21;
            let taken = forms::stored(&device).map_or(0, |form| form.len());
            for length in (0..=taken + 2).filter(|&length| length < 400 || length + 8 > taken) {
                let memory = random.memory(length);
                all.push((device, Act::Store { lent: memory.clone() }));
                if length + 3 > taken || length % 64 == 0 {
                    all.push((illegal, Act::Store { lent: memory }));
                }
            }
        }
    }
    all
}

/// Records of both classes with each field that Class 2 has replaced by the values at its edges, in each place.
pub fn records(random: &mut Random) -> Vec<(Device, Act)> {
    let mut all = Vec::new();
    for base in [opened(1), opened(2)] {
        let mut with = |change: &dyn Fn(&mut Device)| {
            let mut device = base;
            change(&mut device);
            all.push((device, Act::Legal));
        };
        for byte in 0..=255 {
            with(&|d| d.settings.class_number = byte);
            with(&|d| d.own.speaker = byte);
            with(&|d| d.own.microphone = byte);
        }
        [Flag::NO, Flag::YES].iter().chain(&NO_FLAGS).for_each(|&frozen| with(&|d| d.own.frozen = frozen));
        for place in 0..32 {
            for length in [0, 1, 2, 3, 4, 127, 128, 129, 256, 1 << 32, 1 << 63, usize::MAX] {
                with(&|d| d.settings.names[place].len = length);
                with(&|d| super::records::set_name(&mut d.settings.names[place], &vec![b'n'; length.min(128)]));
            }
            for (at, byte) in [0, 1, 2, 3, 64, 127].into_iter().flat_map(|at| [0, 0x1F, b'n'].map(|byte| (at, byte))) {
                with(&|d| d.settings.names[place].bytes[at] = byte);
            }
            with(&|d| super::records::set_name(&mut d.settings.names[place], b"ERR3"));
        }
        for length in (0..=66).chain([256, 1 << 32, usize::MAX]) {
            with(&|d| d.settings.serial.len = length);
            with(&|d| d.settings.version.len = length);
            with(&|d| records::set_text(&mut d.settings.serial, &vec![b's'; length.min(64)]));
            with(&|d| records::set_text(&mut d.settings.version, &vec![b'v'; length.min(64)]));
        }
        for (at, byte) in (0..64).flat_map(|at| [0, 0x1F, b's'].map(|byte| (at, byte))) {
            with(&|d| d.settings.serial.bytes[at] = byte);
            with(&|d| d.settings.version.bytes[at] = byte);
        }
        for count in (0..=34).chain([256, 1 << 31, 1 << 63, usize::MAX]) {
            with(&|d| d.settings.input_count = count);
        }
        for (at, byte) in (0..8).flat_map(|at| (0..=255).map(move |byte| (at, byte))) {
            with(&|d| d.settings.inputs[at] = byte);
        }
    }
    // a record that is not legal by what Class 2 has, and every call on it
    for field in 0..super::records::FIELDS {
        let mut device = super::records::legal(random);
        super::records::damage(random, &mut device, field);
        let place = random.below(4);
        let acts = [
            Act::Open { random: 7, lent: random.memory(136) },
            Act::Close { place },
            Act::Receive { place, bytes: b"%2SNUM ?\r".to_vec(), lent: random.memory(136) },
            Act::Receive { place, bytes: b"%1CLSS ?\r".to_vec(), lent: random.memory(135) },
            Act::Pass { seconds: 1 },
            Act::PassInPlace { seconds: 1 },
            Act::SetFault { mark: true },
            Act::SetErrors { digits: vec![0; 6] },
            Act::SetMark { lamp: 0, enabled: true },
            Act::Store { lent: random.memory(5000) },
        ];
        all.extend(acts.map(|act| (device, act)));
    }
    all
}
