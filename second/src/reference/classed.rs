//! RULES, Class 2, sentence by sentence.

use super::calls::{legal, open, pass, read_reply, receive, set_fault, set_up, set_up_2, write};
use super::calls::{which_setting, which_setting_2};
use crate::compare::class_2::{self, records, setups};
use crate::compare::forms;
use crate::compare::random::Random;
use crate::compare::records::set_text;
use crate::face::{Changed, Command, Device, Flag, Lent, Lent2, Name, Reading};

const BLANK: Changed = Changed { number: 3, device: Device::BLANK };

/// Three inputs, 11, 6A and 5Z, named RGB, nothing and Lager; no password; open at place 0, off.
fn of_class_2() -> Device {
    let lent = Lent { password: Vec::new(), inputs: b"116A5Z".to_vec(), warm: 20, cool: 60, ..forms::common() };
    let names = [b"RGB".to_vec(), Vec::new(), b"Lager".to_vec()];
    let set_up = set_up_2(&setups::of(lent, b"S/N 7", b"1.4", &names));
    assert_eq!(set_up.number, 0);
    open(&set_up.device, 0, &mut [0; 136]).device
}

fn of_class_1() -> Device {
    open(&set_up(&Lent { password: Vec::new(), ..forms::common() }).device, 0, &mut [0; 136]).device
}

fn on(mut device: Device) -> Device {
    device.own.power = 1;
    device
}

/// The reply without its CR; none is empty.
fn told(device: &mut Device, line: &str) -> String {
    let mut out = [0; 136];
    let received = receive(device, 0, format!("{line}\r").as_bytes(), &mut out);
    assert_eq!(received.number, 0);
    *device = received.device;
    String::from_utf8_lossy(&out[..received.length]).trim_end_matches('\r').to_string()
}

fn answers(device: &Device, lines: &[(&str, &str)]) {
    for (line, reply) in lines {
        assert_eq!(told(&mut device.clone(), line), *reply, "{line}");
    }
}

/// "A Class 1 set-up answers every Class 1 line exactly as before and drops `%2` lines".
#[test]
fn class_1_drops_them() {
    let device = on(of_class_1());
    for line in ["%2INPT ?", "%2INST ?", "%2FREZ 1", "%2SVOL 1", "%2SNUM ?", "%2INNM ?11", "%2CLSS ?", "%2ABCD ?"] {
        let mut after = device;
        assert_eq!(told(&mut after, line), "");
        assert!(after == device);
    }
    answers(&device, &[("%1CLSS ?", "%1CLSS=1"), ("%1FREZ ?", "%1FREZ=ERR1"), ("%1INPT 6A", "%1INPT=ERR2")]);
}

/// The header's table, and each refusal in its order.
#[test]
fn lines_of_class_2() {
    let device = on(of_class_2());
    answers(
        &device,
        &[
            ("%1CLSS ?", "%1CLSS=2"),
            ("%1INST ?", "%1INST=11 6A 5Z"),
            ("%1INPT 6A", "%1INPT=OK"),
            ("%1INPT ?", "%1INPT=11"),
            ("%1FREZ ?", "%1FREZ=ERR1"),
            ("%1SNUM ?", "%1SNUM=ERR1"),
            ("%2INPT ?", "%2INPT=11"),
            ("%2inpt 5Z", "%2inpt=OK"),
            ("%2INPT 5z", "%2INPT=ERR2"),
            ("%2INPT 12", "%2INPT=ERR2"),
            ("%2INST ?", "%2INST=11 6A 5Z"),
            ("%2INST 11", "%2INST=ERR1"),
            ("%2FREZ ?", "%2FREZ=0"),
            ("%2FREZ 1", "%2FREZ=OK"),
            ("%2FREZ 2", "%2FREZ=ERR2"),
            ("%2FREZ ", "%2FREZ=ERR2"),
            ("%2SVOL 1", "%2SVOL=OK"),
            ("%2SVOL ?", "%2SVOL=ERR2"),
            ("%2MVOL 0", "%2MVOL=OK"),
            ("%2MVOL 10", "%2MVOL=ERR2"),
            ("%2SNUM ?", "%2SNUM=S/N 7"),
            ("%2SNUM x", "%2SNUM=ERR1"),
            ("%2SVER ?", "%2SVER=1.4"),
            ("%2INNM ?11", "%2INNM=RGB"),
            ("%2INNM ?6A", "%2INNM="),
            ("%2innm ?5Z", "%2innm=Lager"),
            ("%2INNM ?5z", "%2INNM=ERR2"),
            ("%2INNM ?12", "%2INNM=ERR2"),
            ("%2INNM ?", "%2INNM=ERR2"),
            ("%2INNM 11", "%2INNM=ERR2"),
            ("%2CLSS ?", "%2CLSS=ERR1"),
            ("%2POWR ?", "%2POWR=ERR1"),
            ("%2LAMP ?", "%2LAMP=ERR1"),
            ("%2RFIL ?", "%2RFIL=ERR1"),
            ("%3INPT ?", ""),
            ("%2INPT?", ""),
        ],
    );
    let waiting = ["INPT ?", "INPT 6A", "FREZ ?", "FREZ 1", "SVOL 1", "MVOL 0"];
    let others = ["INST ?", "SNUM ?", "SVER ?", "INNM ?11"];
    for (power, fault) in [(0, false), (2, false), (3, false), (0, true), (1, true), (3, true)] {
        let mut device = set_fault(&device, fault).device;
        (device.own.power, device.own.left) = (power, u32::from(power > 1));
        let refused = if fault { "ERR4" } else { "ERR3" };
        for line in waiting {
            let body = &line[..4];
            assert_eq!(told(&mut device.clone(), &format!("%2{line}")), format!("%2{body}={refused}"));
            assert_eq!(told(&mut device.clone(), &format!("%2{body} x")), format!("%2{body}=ERR2"));
        }
        others.iter().for_each(|line| assert!(!told(&mut device.clone(), &format!("%2{line}")).contains("ERR")));
    }
}

/// The header: "A level stops at 0 and at PJ_VOLUME_MOST, and a step that goes no further is OK too. Nothing but FREZ
/// changes the freeze, and nothing but a step a level".
#[test]
fn freeze_and_levels() {
    let mut device = on(of_class_2());
    assert_eq!((device.own.frozen.0, device.own.speaker, device.own.microphone), (0, 10, 10));
    for step in 1..=15 {
        assert_eq!(told(&mut device, "%2SVOL 1"), "%2SVOL=OK");
        assert_eq!(told(&mut device, "%2MVOL 0"), "%2MVOL=OK");
        assert_eq!((device.own.speaker, device.own.microphone), ((10 + step).min(20), 10u8.saturating_sub(step)));
    }
    assert_eq!(told(&mut device, "%2SVOL 0"), "%2SVOL=OK");
    assert_eq!(told(&mut device, "%2FREZ 1"), "%2FREZ=OK");
    for line in ["%1AVMT 31", "%1AVMT 30", "%2INPT 6A", "%1POWR 0", "%1POWR 1"] {
        told(&mut device, line);
        device = pass(&device, 60).device;
        assert_eq!((device.own.frozen.0, device.own.speaker, device.own.microphone), (1, 19, 0), "{line}");
    }
    device = pass(&device, 60).device;
    assert_eq!(told(&mut device, "%2FREZ ?"), "%2FREZ=1");
    assert_eq!(told(&mut device, "%2FREZ 0"), "%2FREZ=OK");
    assert_eq!(device.own.frozen, Flag::NO);
}

/// "a name for each input, of that specification's lengths and under .. rule on bytes and on ERR1 to ERR4".
#[test]
fn set_ups() {
    let good = class_2::forms::common();
    assert_eq!(set_up_2(&good).number, 0);
    let with = |change: &dyn Fn(&mut Lent2)| {
        let mut lent = good.clone();
        change(&mut lent);
        set_up_2(&lent)
    };
    for inputs in [&b"1116A"[..], b"106A11", b"6a5Z11", b"7A5Z11", b"5Z5Z11", b"6A5Z", b"", b"116A5Z11"] {
        assert!(with(&|lent| lent.lent.inputs = inputs.to_vec()) == BLANK);
    }
    for (text, expected) in [(vec![b's'; 32], 0), (vec![b's'; 33], 3), (b"ERR2".to_vec(), 3), (vec![0x1F], 3)] {
        assert_eq!(with(&|lent| lent.serial = text.clone()).number, expected);
        assert_eq!(with(&|lent| lent.version = text.clone()).number, expected);
    }
    for (length, expected) in [(0, 0), (127, 0), (128, 0), (129, 3), (256, 3)] {
        let named = with(&|lent| (lent.names, lent.name_lengths) = (vec![b'n'; length], vec![0, length, 0]));
        assert_eq!(named.number, expected);
    }
    for lengths in [vec![9, 0], vec![9, 0, 0, 0], vec![8, 0, 0], vec![10, 0, 0], vec![usize::MAX, 10, 0], Vec::new()] {
        assert!(with(&|lent| lent.name_lengths = lengths.clone()) == BLANK);
    }
    assert_eq!(with(&|lent| lent.lent.password = b"seven77".to_vec()), Changed { number: 8, device: Device::BLANK });
    let both = with(&|lent| (lent.lent.password, lent.version) = (b"seven77".to_vec(), b"ERR1".to_vec()));
    assert!(both == BLANK);

    // "`pj_set_up` is Class 1, as it is."
    assert!(set_up(&good.lent) == BLANK);
    assert_eq!(which_setting(&good.lent), 6);
    let in_class_1 = Lent { inputs: b"1159".to_vec(), ..good.lent };
    assert_eq!((set_up(&in_class_1).number, which_setting(&in_class_1)), (0, 0));
    assert_eq!(set_up(&in_class_1).device.settings.class_number, 1);
}

/// RULES, The legal record: "the place of the first setting out of its range, a password of 1 to 7 letters and digits
/// being in its range; where it gives 8, that of the password; and 0 exactly where it gives 0".
#[test]
fn which_setting_it_was() {
    let good = class_2::forms::common();
    let with = |change: &dyn Fn(&mut Lent2)| {
        let mut lent = good.clone();
        change(&mut lent);
        (set_up_2(&lent).number, which_setting_2(&lent))
    };
    assert_eq!(with(&|_| ()), (0, 0));
    assert_eq!(with(&|lent| lent.lent.inputs = b"116A5z".to_vec()), (3, 6));
    assert_eq!(with(&|lent| lent.lent.inputs = b"116A5".to_vec()), (3, 6));
    assert_eq!(with(&|lent| lent.serial = vec![b's'; 33]), (3, 10));
    assert_eq!(with(&|lent| lent.version = b"ERR1".to_vec()), (3, 11));
    assert_eq!(with(&|lent| (lent.serial, lent.version) = (vec![0], vec![0])), (3, 10));
    assert_eq!(with(&|lent| (lent.lent.cool, lent.serial) = (0, vec![0])), (3, 9));
    for lengths in [vec![9, 0], vec![9, 0, 0, 0], vec![8, 0, 0], vec![10, 0, 0], vec![usize::MAX, 10, 0], Vec::new()] {
        assert_eq!(with(&|lent| lent.name_lengths = lengths.clone()), (3, 12));
        assert_eq!(with(&|lent| (lent.version, lent.name_lengths) = (vec![0], lengths.clone())), (3, 11));
    }
    let short = b"seven77".to_vec();
    assert_eq!(with(&|lent| lent.lent.password = short.clone()), (8, 5));
    assert_eq!(with(&|lent| (lent.lent.password, lent.version) = (short.clone(), vec![0])), (3, 11));

    let mut random = Random::new(1);
    for _ in 0..20_000 {
        let lent = class_2::setups::any(&mut random);
        match (set_up_2(&lent).number, which_setting_2(&lent)) {
            (0, 0) | (8, 5) | (3, 1..=12) => (),
            other => panic!("{other:?}: {lent:?}"),
        }
    }
}

/// The header: "1 or 2; what follows is all zero in Class 1"; "one an input, in the inputs' order; all zero past the
/// inputs"; "levels, 0 to PJ_VOLUME_MOST".
#[test]
fn records_of_both_classes() {
    for base in [of_class_1(), of_class_2()] {
        let is_legal = |change: &dyn Fn(&mut Device)| {
            let mut device = base;
            change(&mut device);
            legal(&device)
        };
        let class = base.settings.class_number;
        for number in 0..=255 {
            // the texts of the second make it no record of Class 1, and the first has names, all empty, in Class 2
            let expected = number == class || (class, number) == (1, 2);
            assert_eq!(is_legal(&|d| d.settings.class_number = number), expected);
            assert_eq!(is_legal(&|d| d.own.speaker = number), number <= 20);
            assert_eq!(is_legal(&|d| d.own.microphone = number), number <= 20);
        }
        assert!(is_legal(&|d| d.own.frozen = Flag::YES));
        assert_eq!(is_legal(&|d| set_text(&mut d.settings.serial, b"serial")), class == 2);
        assert_eq!(is_legal(&|d| set_text(&mut d.settings.version, &[b'v'; 32])), class == 2);
        assert!(!is_legal(&|d| set_text(&mut d.settings.version, &[b'v'; 33])));
        for place in 0..32 {
            let named = is_legal(&|d| records::set_name(&mut d.settings.names[place], b"name"));
            assert_eq!(named, class == 2 && place < 3);
            assert!(!is_legal(&|d| d.settings.names[place].bytes[127] = 1));
        }
        assert_eq!(is_legal(&|d| d.settings.inputs[..2].copy_from_slice(b"6Z")), class == 2);
        assert!(is_legal(&|d| d.settings.names = [Name::EMPTY; 32]));
    }
}

fn read(code: u8, line: &str) -> Reading {
    let first = if (15..=17).contains(&code) { 1 } else { 6 };
    read_reply(Command { code, first, second: 10 }, format!("{line}\r").as_bytes())
}

fn written(command: Command) -> (u32, String) {
    let mut out = [0; 168];
    let written = write(command, false, 0, b"", &mut out);
    (written.number, String::from_utf8_lossy(&out[..written.length]).to_string())
}

/// The commands that the header lists, and what is none.
#[test]
fn the_writer() {
    for (code, line) in [
        (3, "%1INPT 6A\r"),
        (14, "%2FREZ ?\r"),
        (18, "%2SNUM ?\r"),
        (19, "%2SVER ?\r"),
        (20, "%2INNM ?6A\r"),
        (21, "%2INPT ?\r"),
        (22, "%2INPT 6A\r"),
        (23, "%2INST ?\r"),
    ] {
        assert_eq!(written(Command { code, first: 6, second: 10 }), (0, line.to_string()));
    }
    for (code, body) in [(15, "FREZ"), (16, "SVOL"), (17, "MVOL")] {
        for first in 0..=255 {
            let expected = if first <= 1 { (0, format!("%2{body} {first}\r")) } else { (3, String::new()) };
            assert_eq!(written(Command { code, first, second: 255 }), expected);
        }
    }
    for (code, (first, second)) in [3, 20, 22].into_iter().flat_map(|code| {
        (0..=255).flat_map(|first| [0, 1, 9, 10, 35, 36].map(move |second| (first, second))).map(move |of| (code, of))
    }) {
        let expected = (1..=6).contains(&first) && (1..=35).contains(&second);
        assert_eq!(written(Command { code, first, second }).0 == 0, expected);
    }
    (24..=255).for_each(|code| assert_eq!(written(Command { code, first: 1, second: 1 }).0, 3));
    assert_eq!(written(Command { code: 22, first: 6, second: 35 }).1, "%2INPT 6Z\r");
}

/// "on a `%1` reply it allows whatever a legal set-up of either class answers there".
#[test]
fn the_reader() {
    let told = |reading: Reading| (reading.number, reading.kind, reading.first, reading.second);
    for (code, line, expected) in [
        (2, "%1INPT=6A", (0, 4, 6, 10)),
        (2, "%1INPT=6a", (12, 0, 0, 0)),
        (2, "%2INPT=6A", (10, 0, 0, 0)),
        (13, "%1CLSS=1", (0, 10, 1, 0)),
        (13, "%1CLSS=2", (0, 10, 2, 0)),
        (13, "%1CLSS=3", (12, 0, 0, 0)),
        (13, "%2CLSS=2", (10, 0, 0, 0)),
        (14, "%2FREZ=1", (0, 12, 1, 0)),
        (14, "%2frez=0", (0, 12, 0, 0)),
        (14, "%2FREZ=2", (12, 0, 0, 0)),
        (14, "%2FREZ=OK", (12, 0, 0, 0)),
        (14, "%2FREZ=ERR2", (12, 0, 0, 0)),
        (14, "%2FREZ=ERR3", (0, 2, 3, 0)),
        (14, "%1FREZ=1", (10, 0, 0, 0)),
        (14, "%1POWR=1", (10, 0, 0, 0)),
        (14, "%2SVOL=OK", (11, 0, 0, 0)),
        (15, "%2FREZ=OK", (0, 1, 0, 0)),
        (15, "%2FREZ=ERR2", (0, 2, 2, 0)),
        (16, "%2SVOL=OK", (0, 1, 0, 0)),
        (16, "%2SVOL=10", (12, 0, 0, 0)),
        (17, "%2MVOL=ERR4", (0, 2, 4, 0)),
        (17, "%2SVOL=OK", (11, 0, 0, 0)),
        (18, "%2SNUM=ERR2", (12, 0, 0, 0)),
        (19, "%2SVER=ERR1", (0, 2, 1, 0)),
        (20, "%2INNM=ERR2", (0, 2, 2, 0)),
        (20, "%2INNM=ERR5", (0, 9, 0, 0)),
        (21, "%2INPT=5Z", (0, 4, 5, 35)),
        (21, "%1INPT=5Z", (10, 0, 0, 0)),
        (22, "%2INPT=OK", (0, 1, 0, 0)),
        (23, "%2INST=11 6A", (0, 8, 0, 0)),
        (23, "%2INST=11 6a", (12, 0, 0, 0)),
        (24, "%2INST=11", (3, 0, 0, 0)),
    ] {
        assert_eq!(told(read(code, line)), expected, "{line}");
    }
    for (code, body, longest) in [(18, "SNUM", 32), (19, "SVER", 32), (20, "INNM", 128)] {
        for length in 0..=130 {
            let reading = read(code, &format!("%2{body}={}", "n".repeat(length)));
            let expected = match length {
                _ if length <= longest => (0, 9, length),
                129.. => (10, 0, 0),
                _ => (12, 0, 0),
            };
            assert_eq!((reading.number, reading.kind, reading.count), expected);
            assert!(reading.text[..reading.count].iter().all(|&byte| byte == b'n'));
            assert!(reading.text[reading.count..].iter().all(|&byte| byte == 0));
        }
    }
    let inputs = read(8, "%1INST=11 6A 5Z");
    assert_eq!((inputs.kind, inputs.count, &inputs.inputs[..6]), (8, 3, &b"116A5Z"[..]));
}

/// What a record tells a controller that asks with this command, as a reading: from the record alone.
fn meant(device: &Device, command: Command) -> Reading {
    let Device { settings, own, .. } = device;
    let of = |kind, first, second| Reading { kind, first, second, ..Reading::refused(0) };
    let text = |bytes: &[u8]| {
        let mut reading = Reading { count: bytes.len(), ..of(9, 0, 0) };
        reading.text[..bytes.len()].copy_from_slice(bytes);
        reading
    };
    let number = |character: u8| if character < b'A' { character - b'0' } else { character - b'A' + 10 };
    let input = |place: usize| (settings.inputs[2 * place] - b'0', number(settings.inputs[2 * place + 1]));
    let listed = (0..settings.input_count).find(|&place| input(place) == (command.first, command.second));
    let waits = matches!(command.code, 2 | 3 | 14..=17 | 21 | 22);
    match command.code {
        3 | 22 | 20 if listed.is_none() => of(2, 2, 0),
        _ if waits && own.fault.is_raised() => of(2, 4, 0),
        _ if waits && own.power != 1 => of(2, 3, 0),
        2 | 21 => of(4, input(own.chosen).0, input(own.chosen).1),
        8 | 23 => {
            let mut reading = Reading { count: settings.input_count, ..of(8, 0, 0) };
            reading.inputs = settings.inputs;
            reading
        }
        13 => of(10, settings.class_number, 0),
        14 => of(12, own.frozen.0, 0),
        3 | 15..=17 | 22 => of(1, 0, 0),
        18 => text(&settings.serial.bytes[..settings.serial.len]),
        19 => text(&settings.version.bytes[..settings.version.len]),
        20 => {
            let name = &settings.names[listed.expect("listed")];
            text(&name.bytes[..name.len])
        }
        _ => unreachable!(),
    }
}

/// "Say once, over the class, that the reader returns what the projector meant, for every command of a class no higher
/// than the set-up's; a higher one gets no reply and changes nothing but what swallowing a line does."
#[test]
fn the_reader_returns_what_was_meant() {
    let mut random = Random::new(14);
    let (mut read_back, mut dropped) = (0, 0);
    for _ in 0..40_000 {
        let (mut device, place) = records::between_lines(&mut random);
        device.connections[place].phase = 2;
        let mut command = class_2::replies::command(&mut random);
        if random.one_in(2) && matches!(command.code, 3 | 20 | 22) {
            let listed = 2 * random.below(device.settings.input_count);
            let [kind, number] = [device.settings.inputs[listed], device.settings.inputs[listed + 1]];
            command.first = kind - b'0';
            command.second = if number < b'A' { number - b'0' } else { number - b'A' + 10 };
        }
        let (number, line) = written(command);
        if number != 0 || !matches!(command.code, 2 | 3 | 8 | 13..) {
            continue;
        }
        let mut out = [0; 136];
        let received = receive(&device, place, line.as_bytes(), &mut out);
        assert_eq!((received.number, received.taken), (0, line.len()));
        if command.code >= 14 && device.settings.class_number == 1 {
            dropped += 1;
            assert!(received.length == 0 && received.device == device);
        } else {
            read_back += 1;
            assert_eq!(read_reply(command, &out[..received.length]), meant(&device, command));
        }
    }
    assert!(read_back > 10_000 && dropped > 5_000, "{read_back} {dropped}");
}
