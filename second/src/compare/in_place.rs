//! The record that a call in place finds where it is made.

use crate::face::{Act, Connection, Device, Flag, Lent, Lent2, PLACES};
use crate::reference::calls;
use crate::reference::rules::{Rules, unmistaken};
use std::sync::LazyLock;

/// The record that the call by value is lent. A call that fills one is lent none by value: where the case has none
/// either, it finds a full one in two cases of four, that of zeros in one, and in one a record of nothing but rubbish.
pub fn there<'a>(device: &'a Device, act: &Act) -> &'a Device {
    let turn = match act {
        Act::SetUp(lent) => turn(lent),
        Act::SetUp2(lent) => turn(&lent.lent),
        Act::Load { bytes } => bytes.len(),
        _ => return device,
    };
    match turn % 4 {
        _ if *device != Device::BLANK => device,
        0 => device,
        1 => &RUBBISH,
        _ => &FULL,
    }
}

fn turn(lent: &Lent) -> usize {
    lent.name.len() + lent.inputs.len() / 2 + lent.warm as usize
}

/// Legal, of Class 2, in warm-up with all lamps burning, and with each text, list and line as long as it may be.
static FULL: LazyLock<Device> = LazyLock::new(|| {
    let lent = Lent2 {
        lent: Lent {
            name: vec![b'n'; 64],
            maker: vec![b'm'; 32],
            model: vec![b'o'; 32],
            other: vec![b'i'; 32],
            password: vec![b'p'; 32],
            inputs: (b'A'..=b'Z').chain(b'1'..=b'6').flat_map(|number| [b'6', number]).collect(),
            lamps: vec![359_999_999; 8],
            warm: 600,
            cool: 600,
        },
        serial: vec![b's'; 32],
        version: vec![b'v'; 32],
        names: vec![b'n'; 32 * 128],
        name_lengths: vec![128; 32],
    };
    let mut device = unmistaken(|| Rules::Now.by(|| calls::set_up_2(&lent))).device;
    let own = &mut device.own;
    (own.power, own.left, own.chosen, own.errors) = (3, 600, 31, [2; 6]);
    (own.video_muted, own.audio_muted, own.fault, own.frozen) = (Flag::YES, Flag::YES, Flag::YES, Flag::YES);
    (own.speaker, own.microphone) = (20, 20);
    let mut awaiting = Connection { phase: 1, age: 29, random: u32::MAX, ..Connection::CLOSED };
    (awaiting.line.held, awaiting.line.bytes) = (167, [b'a'; 167]);
    device.connections = [awaiting; PLACES];
    device.connections[PLACES - 1].line = Connection::CLOSED.line;
    device.connections[PLACES - 1].line.overlong = Flag::YES;
    device
});

/// Nothing of it is zero, no number is one that a record may have, and each bool is set.
static RUBBISH: LazyLock<Device> = LazyLock::new(|| {
    let mut device = *FULL;
    let settings = &mut device.settings;
    let texts = [&mut settings.name, &mut settings.maker, &mut settings.model, &mut settings.other];
    let texts = texts.into_iter().chain([&mut settings.password, &mut settings.serial, &mut settings.version]);
    texts.for_each(|text| (text.len, text.bytes) = (usize::MAX, [0xA5; 64]));
    settings.names.iter_mut().for_each(|name| (name.len, name.bytes) = (usize::MAX, [0xA5; 128]));
    (settings.input_count, settings.inputs, settings.lamp_count) = (usize::MAX, [0xA5; 64], usize::MAX);
    (settings.warm, settings.cool, settings.class_number) = (u32::MAX, u32::MAX, 0xA5);
    let own = &mut device.own;
    (own.power, own.left, own.chosen, own.errors) = (0xA5, u32::MAX, usize::MAX, [0xA5; 6]);
    (own.lamps, own.speaker, own.microphone) = ([u32::MAX; 8], 0xA5, 0xA5);
    for connection in &mut device.connections {
        (connection.phase, connection.age) = (0xA5, u32::MAX);
        (connection.line.overlong, connection.line.held, connection.line.bytes) = (Flag::YES, usize::MAX, [0xA5; 167]);
    }
    device
});

#[test]
fn one_is_legal_and_no_field_of_the_other_is_zero() {
    use crate::face::wire::Wire;
    assert!(calls::legal(&FULL));
    assert!(!calls::legal(&RUBBISH));
    let mut bytes = Vec::new();
    RUBBISH.put(&mut bytes);
    assert!(!bytes.contains(&0));
}
