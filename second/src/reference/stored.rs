//! RULES, Stored form, in forms written out by hand, and what is said of every form.

use super::form::{LONGEST, LONGEST_MARKED, SHORTEST};
use super::{calls, form, swap};
use crate::compare::random::Random;
use crate::compare::{class_2, forms, records};
use crate::face::{Changed, Device, Flag, Lent, Lent2};

/// Two lamps, three inputs and a name in Japanese, byte by byte from the rules.
#[rustfmt::skip]
const BY_HAND: &[u8] = &[
    3,                                                                          // "version 3"
    11, 0xE8, 0xA3, 0x81, 0xE6, 0x96, 0xAD, 0xE5, 0x8F, 0xB0, 0x20, 0x33,       // "name": 裁断台 3
    5, 0x6D, 0x61, 0x6B, 0x65, 0x72,                                            // "maker": maker
    2, 0x4D, 0x37,                                                              // "model": M7
    0,                                                                          // "other"
    8, 0x53, 0x63, 0x68, 0x6E, 0x69, 0x74, 0x74, 0x38,                          // "password": Schnitt8
    3, 0x31, 0x31, 0x33, 0x32, 0x35, 0x39,                                      // "inputs": 11, 32, 59
    2, 0x00, 0x00, 0x0E, 0x10, 0x15, 0x75, 0x29, 0xFF,                          // "lamps": 3,600 and 359,999,999
    2, 0x01, 0x01,                                                              // "marks": both set
    0x00, 0x14, 0x02, 0x58,                                                     // W and C: 20 and 600
    1,                                                                          // "a last byte for the class"
];

/// Class 2, with three inputs of which two are not of Class 1.
#[rustfmt::skip]
const OF_CLASS_2: &[u8] = &[
    3,
    0, 0, 0, 0, 0,                                                              // "name" to "password": all empty
    3, 0x31, 0x31, 0x36, 0x41, 0x35, 0x5A,                                      // "its two characters": 11, 6A, 5Z
    0, 0,                                                                       // no lamps, no marks
    0x00, 0x01, 0x01, 0x02,                                                     // W and C: 1 and 258
    2,                                                                          // "a last byte for the class"
    2, 0x53, 0x37,                                                              // "serial number": S7
    3, 0x31, 0x2E, 0x34,                                                        // "software version": 1.4
    3, 0x52, 0x47, 0x42,                                                        // "a name for each input": RGB
    0,                                                                          // none
    2, 0xFF, 0x20,                                                              // 0xFF and a space
];

/// The same as `BY_HAND` in version 2, as boards wrote it before Class 2.
#[rustfmt::skip]
const MARKED: &[u8] = &[
    2,                                                                          // "version 2"
    11, 0xE8, 0xA3, 0x81, 0xE6, 0x96, 0xAD, 0xE5, 0x8F, 0xB0, 0x20, 0x33,
    5, 0x6D, 0x61, 0x6B, 0x65, 0x72,
    2, 0x4D, 0x37,
    0,
    8, 0x53, 0x63, 0x68, 0x6E, 0x69, 0x74, 0x74, 0x38,
    3, 0x31, 0x31, 0x33, 0x32, 0x35, 0x39,
    2, 0x00, 0x00, 0x0E, 0x10, 0x15, 0x75, 0x29, 0xFF,
    2, 0x01, 0x01,
    0x00, 0x14, 0x02, 0x58,
];

/// And in version 1, as boards wrote it before lamps had marks.
#[rustfmt::skip]
const OLD: &[u8] = &[
    1,                                                                          // "the version byte 1"
    11, 0xE8, 0xA3, 0x81, 0xE6, 0x96, 0xAD, 0xE5, 0x8F, 0xB0, 0x20, 0x33,
    5, 0x6D, 0x61, 0x6B, 0x65, 0x72,
    2, 0x4D, 0x37,
    0,
    8, 0x53, 0x63, 0x68, 0x6E, 0x69, 0x74, 0x74, 0x38,
    3, 0x31, 0x31, 0x33, 0x32, 0x35, 0x39,
    2, 0x00, 0x00, 0x0E, 0x10, 0x15, 0x75, 0x29, 0xFF,
    0x00, 0x14, 0x02, 0x58,
];

fn by_hand() -> Lent {
    Lent {
        name: "裁断台 3".as_bytes().to_vec(),
        maker: b"maker".to_vec(),
        model: b"M7".to_vec(),
        other: Vec::new(),
        password: b"Schnitt8".to_vec(),
        inputs: b"113259".to_vec(),
        lamps: vec![3_600, 359_999_999],
        warm: 20,
        cool: 600,
    }
}

fn of_class_2() -> Lent2 {
    Lent2 {
        lent: Lent { inputs: b"116A5Z".to_vec(), warm: 1, cool: 258, ..Lent::default() },
        serial: b"S7".to_vec(),
        version: b"1.4".to_vec(),
        names: b"RGB\xFF ".to_vec(),
        name_lengths: vec![3, 0, 2],
    }
}

fn stored(device: &Device) -> Vec<u8> {
    let mut out = [0xA5; LONGEST + 3];
    let written = swap::store(device, &mut out);
    assert_eq!(written.number, 0);
    assert!(out[written.length..].iter().all(|&byte| byte == 0xA5));
    out[..written.length].to_vec()
}

fn number(bytes: &[u8]) -> u32 {
    let Changed { number, device } = swap::load(bytes);
    assert_eq!(number == 0, calls::legal(&device));
    assert!(number == 0 || device == Device::BLANK);
    number
}

#[test]
fn by_hand_is_loaded_and_stored() {
    assert_eq!(swap::load(BY_HAND), calls::set_up(&by_hand()));
    assert_eq!(number(BY_HAND), 0);
    assert_eq!(stored(&calls::set_up(&by_hand()).device), BY_HAND);
    assert_eq!(swap::load(OF_CLASS_2), calls::set_up_2(&of_class_2()));
    assert_eq!(number(OF_CLASS_2), 0);
    assert_eq!(stored(&calls::set_up_2(&of_class_2()).device), OF_CLASS_2);
}

/// RULES, Stored form: "version 1 loads with all set. Each version has one form; the newest is written." RULES, Class 2:
/// "Versions 1 and 2 load as Class 1."
#[test]
fn the_old_versions_are_loaded_and_the_newest_stored() {
    for old in [OLD, MARKED] {
        assert_eq!(swap::load(old), calls::set_up(&by_hand()));
        assert_eq!(stored(&swap::load(old).device), BY_HAND);
        (0..old.len()).for_each(|end| assert_eq!(number(&old[..end]), 21));
        assert_eq!(number(&[old, b"\0"].concat()), 22);
    }
    let as_marked = [b"\x02", &OLD[1..]].concat();
    assert_eq!(number(&as_marked), 21, "W's first byte counts no marks, and C is cut short");
    let as_old = [b"\x01", &MARKED[1..]].concat();
    assert_eq!(number(&as_old), 22, "the count of marks and the marks are W and half of C");
    assert_eq!(number(&[b"\x03", &MARKED[1..]].concat()), 21, "no class");
    assert_eq!(number(&[b"\x02", &BY_HAND[1..]].concat()), 22, "a class");
}

/// The header: "In Class 1 that is the last, and so is a byte that is no class."
#[test]
fn classes_of_a_form() {
    let (end, texts) = (OF_CLASS_2.len() - 16, OF_CLASS_2.len() - 15);
    assert_eq!(OF_CLASS_2[end], 2);
    let of_class_1 = forms::of(&Lent { inputs: b"11".to_vec(), ..of_class_2().lent });
    for byte in 0..=255 {
        let with = [b"\x03", &of_class_1[1..], &[byte]].concat();
        let expected = match byte {
            1 => 0,
            2 => 21,
            _ => 23,
        };
        assert_eq!(number(&with), expected);
        assert_eq!(number(&[&with[..], b"\0"].concat()), if byte == 2 { 21 } else { 22 });
        let changed = [&OF_CLASS_2[..end], &[byte]].concat();
        assert_eq!(number(&changed), if byte == 2 { 21 } else { 23 });
        assert_eq!(number(&[&changed[..], &OF_CLASS_2[texts..]].concat()), if byte == 2 { 0 } else { 22 });
    }
    (0..OF_CLASS_2.len()).for_each(|end| assert_eq!(number(&OF_CLASS_2[..end]), 21));
    assert_eq!(number(&[OF_CLASS_2, b"\0"].concat()), 22);
    assert_eq!(number(&[b"\x02", &OF_CLASS_2[1..end]].concat()), 23, "6A is of Class 2");
}

/// "of that specification's lengths and under .. rule on bytes and on ERR1 to ERR4".
#[test]
fn texts_of_a_form() {
    let form = |text: &[u8], place: usize| {
        let mut texts = [&b"S7"[..], b"1.4", b"RGB", b"", b""];
        texts[place] = text;
        let texts: Vec<u8> = texts.iter().flat_map(|text| [&[text.len() as u8], *text].concat()).collect();
        [&OF_CLASS_2[..OF_CLASS_2.len() - 15], &texts].concat()
    };
    for (place, longest) in [32, 32, 128, 128, 128].into_iter().enumerate() {
        for length in 0..=255 {
            assert_eq!(number(&form(&vec![b'A'; length], place)), if length > longest { 23 } else { 0 });
        }
        for (text, expected) in [(&b"ERR1"[..], 23), (b"ERR4", 23), (b"ERR5", 0), (b"\x1F", 23), (b"\xC3", 0)] {
            assert_eq!(number(&form(text, place)), expected);
            assert_eq!(number(&[&form(text, place)[..], b"\0"].concat()), 22);
            assert_eq!(number(&form(text, place)[..form(text, place).len() - 1]), 21);
        }
    }
}

/// "one byte 0 or 1 each", one for each lamp, "at least one set if there are lamps".
#[test]
fn marks_of_a_form() {
    let with = |marks: &[u8]| {
        let marked = forms::marked(&by_hand(), marks);
        [b"\x03", &marked[1..], b"\x01"].concat()
    };
    for (marks, enabled) in [([1, 1], [true, true]), ([1, 0], [true, false]), ([0, 1], [false, true])] {
        let loaded = swap::load(&with(&marks));
        assert_eq!(
            (loaded.number, &loaded.device.own.enabled[..3]),
            (0, &[enabled[0], enabled[1], false].map(Flag::from)[..])
        );
        assert_eq!(stored(&loaded.device), with(&marks));
    }
    for marks in [&[0, 0][..], &[2, 1], &[1, 255], &[], &[1], &[1, 1, 0], &[1, 1, 1]] {
        assert_eq!(number(&with(marks)), 23);
        assert_eq!(number(&[&with(marks)[..], b"\0"].concat()), 22);
        assert_eq!(number(&with(marks)[..with(marks).len() - 1]), 21);
    }
    assert_eq!(number(&forms::marked(&Lent { lamps: Vec::new(), ..by_hand() }, &[])), 0);
    assert_eq!(number(&forms::marked(&Lent { lamps: Vec::new(), ..by_hand() }, &[1])), 23);
}

/// An hour of warm-up and power-on on the old board; the second lamp is at its limit already.
#[test]
fn hours_go_on_after_a_swap() {
    let mut device = swap::load(BY_HAND).device;
    device.own.power = 3;
    device.own.left = 20;
    device = calls::pass(&device, 3_600).device;
    let mut burnt = BY_HAND.to_vec();
    burnt[40..44].copy_from_slice(&[0x00, 0x00, 0x1C, 0x20]);
    assert_eq!(stored(&device), burnt);
    let swapped = swap::load(&burnt).device;
    assert_eq!((swapped.own.power, &swapped.own.lamps[..2]), (0, &[7_200, 359_999_999][..]));
}

#[test]
fn numbers_of_the_reader() {
    assert_eq!(number(b""), 21);
    (0..=255).filter(|version| ![1, 2, 3].contains(version)).for_each(|version| assert_eq!(number(&[version]), 20));
    (0..BY_HAND.len()).for_each(|end| assert_eq!(number(&BY_HAND[..end]), 21));
    assert_eq!(number(&[BY_HAND, b"\0"].concat()), 22);
    let mut wrong = BY_HAND.to_vec();
    wrong[3] = b'A';
    assert_eq!(number(&wrong), 23, "not UTF-8");
    assert_eq!(number(&wrong[..wrong.len() - 1]), 21);
    assert_eq!(number(&[&wrong[..], b"\0"].concat()), 22);
    wrong[0] = 4;
    assert_eq!(number(&wrong[..wrong.len() - 1]), 20);
    assert_eq!(number(&[&wrong[..], b"\0"].concat()), 20);
}

#[test]
fn numbers_of_the_writer() {
    let device = calls::set_up(&by_hand()).device;
    for length in 0..BY_HAND.len() {
        let mut out = vec![7; length];
        assert_eq!(swap::store(&device, &mut out).number, 2);
        assert_eq!(swap::store(&Device::BLANK, &mut out).number, 1);
        assert_eq!(out, vec![7; length]);
    }
}

/// `PJ_FORM_MOST` is the longest.
#[test]
fn lengths_of_forms() {
    assert_eq!((SHORTEST, LONGEST_MARKED, LONGEST), (16, 309, 4504));
    assert_eq!(stored(&calls::set_up(&forms::least()).device).len(), SHORTEST);
    assert_eq!(stored(&calls::set_up(&forms::most()).device).len(), LONGEST_MARKED + 1);
    assert_eq!(stored(&calls::set_up_2(&class_2::forms::most()).device).len(), LONGEST);
}

/// From any legal state: what is loaded is the fresh set-up of the same settings, with the seconds as they are now.
#[test]
fn a_stored_record_loads_as_a_fresh_set_up() {
    let mut random = Random::new(1);
    for turn in 0..20_000 {
        let device = if turn % 2 == 0 { records::legal(&mut random) } else { class_2::records::legal(&mut random) };
        let swapped = swap::load(&stored(&device));
        let mut fresh = Device { settings: device.settings, ..Device::BLANK };
        fresh.own.lamps = device.own.lamps;
        fresh.own.enabled = device.own.enabled;
        (fresh.own.speaker, fresh.own.microphone) = (10, 10);
        assert!(swapped == Changed { number: 0, device: fresh });
    }
}

/// "Each version has one form": what loads is what its record stores, or that in an older version.
#[test]
fn what_loads_is_the_one_form() {
    let mut random = Random::new(2);
    let mut loaded = [0; 4];
    for turn in 0..60_000 {
        let device = class_2::records::legal(&mut random);
        let loads = if turn % 2 == 0 { forms::load } else { class_2::forms::load };
        let crate::face::Act::Load { bytes } = loads(&mut random, &device) else { unreachable!() };
        if number(&bytes) == 0 {
            loaded[usize::from(bytes[0])] += 1;
            let stored = stored(&swap::load(&bytes).device);
            let (read, _) = form::read(&stored).expect("what is stored is a form");
            let old = form::Stored { marks: read.marks.filter(|_| bytes[0] > 1), class: None, ..read };
            assert_eq!(bytes, if bytes[0] < 3 { form::written(&old) } else { stored });
        }
    }
    assert!(loaded[1..].iter().all(|&times| times > 1_000), "{loaded:?}");
}
