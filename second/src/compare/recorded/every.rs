//! What leaves nothing to chance: every byte in every place of a line, every length of what is received and of memory, every
//! place and lamp, a log's numbers at their ends.

use super::making::{self, begun};
use crate::compare::Case;
use crate::compare::forms;
use crate::compare::histories::NO_PLACES;
use crate::compare::random::Random;
use crate::face::{Act, Device, Lent, Log, Part, Said};
use crate::reference::recorded::calls::LINE_ROOM;
use crate::reference::{calls, rules::unmistaken};
use std::rc::Rc;

pub fn cases(random: &mut Random) -> Vec<Case> {
    let device = Rc::new(at_work());
    let mut all: Vec<Case> = recorded(random).into_iter().map(|act| Case::one(device.clone(), act)).collect();
    all.extend(played(random).into_iter().map(|act| Case::one(device.clone(), act)));
    for form in [&b""[..], b"123456789", &[0; 4504], &[255; 300]] {
        all.push(Case::one(Device::BLANK, Act::LogBegun { form: form.to_vec() }));
    }
    all.push(files_in_a_row(&device));
    all
}

/// Two lamps, in warm-up; at place 0 somebody is served, at place 2 too.
fn at_work() -> Device {
    let lent = Lent { password: Vec::new(), lamps: vec![3_599, 7], ..forms::common() };
    let mut device = unmistaken(|| calls::set_up(&lent)).device;
    (device.own.power, device.own.left) = (3, 2);
    device.connections[0].phase = 2;
    device.connections[2].phase = 2;
    device
}

const HERE: Log = Log { file: 1, lines: 12, sum: 0x0a1b_2c3d };

fn recorded(random: &mut Random) -> Vec<Act> {
    let record = |said: Said| Act::Record { log: HERE, said, lent: vec![0xA5; LINE_ROOM] };
    let mut all = Vec::new();
    for place in (0..300).chain(NO_PLACES.iter().copied()) {
        all.push(record(Said::Opened { place, random: 0xa1b }));
        all.push(record(Said::Received { place, bytes: b"%1POWR ?\r".to_vec() }));
        all.push(record(Said::Closed { place }));
        all.extend([false, true].map(|enabled| record(Said::Mark { lamp: place, enabled })));
    }
    let receive = |bytes: Vec<u8>| record(Said::Received { place: 3, bytes });
    for length in (0..150).chain(2040..2052).chain([4095, 4096, 4097]) {
        all.push(receive(vec![b'a'; length]));
        all.push(receive([vec![b'~'; length], b"\r".to_vec()].concat()));
        all.push(receive([vec![b' '; length], b"\r".to_vec()].concat()));
        all.push(receive([vec![0xF0; length], b"\r\n".to_vec()].concat()));
    }
    for byte in 0..=255 {
        all.push(receive(vec![byte]));
        all.extend([[byte, b'\r'], [b'a', byte], [b'\r', byte]].map(|bytes| receive(bytes.to_vec())));
        all.extend(
            [[byte, b'a', b'\r'], [b'a', byte, b'\r'], [b'a', b'\r', byte]].map(|bytes| receive(bytes.to_vec())),
        );
        all.push(record(Said::File { time: vec![byte] }));
        all.extend([[byte, b'1'], [b'1', byte]].map(|time| record(Said::File { time: time.to_vec() })));
        for place in 0..6 {
            let mut digits = vec![1; 6];
            digits[place] = byte;
            all.push(record(Said::Errors { digits }));
        }
    }
    for length in 0..60 {
        all.push(record(Said::File { time: vec![b'~'; length] }));
        all.push(record(Said::Errors { digits: vec![2; length] }));
    }
    let numbers = (0..32).map(|bit| 1 << bit).chain((0..10).map(|power| 10u32.pow(power)));
    for number in numbers.flat_map(|edge| [edge - 1, edge, edge + 1]).chain([u32::MAX - 1, u32::MAX]) {
        all.push(record(Said::Passed { seconds: number }));
        all.push(record(Said::Opened { place: 1, random: number }));
        for log in [Log { file: number, ..HERE }, Log { lines: number, ..HERE }, Log { sum: number, ..HERE }] {
            let saids = [Said::File { time: Vec::new() }, Said::Stated, Said::Passed { seconds: 60 }];
            all.extend(saids.map(|said| Act::Record { log, said, lent: vec![0xA5; LINE_ROOM] }));
        }
    }
    for log in ends() {
        all.extend(each_said().into_iter().map(|said| Act::Record { log, said, lent: vec![0; LINE_ROOM] }));
    }
    for said in each_said() {
        for length in (0..70).chain(LINE_ROOM - 3..LINE_ROOM + 3) {
            let lent = random.memory(length);
            all.push(Act::Record { log: HERE, said: said.clone(), lent });
        }
    }
    all
}

fn each_said() -> [Said; 12] {
    [
        Said::File { time: Vec::new() },
        Said::File { time: b"2026-11-27T05:45:09Z".to_vec() },
        Said::File { time: b"a b".to_vec() },
        Said::Opened { place: 1, random: 1 },
        Said::Received { place: 0, bytes: b"%1POWR 1\r".to_vec() },
        Said::Received { place: 4, bytes: b"%1POWR 1\r".to_vec() },
        Said::Passed { seconds: 60 },
        Said::Closed { place: 2 },
        Said::Fault { mark: true },
        Said::Errors { digits: vec![0, 1, 2, 0, 0, 0] },
        Said::Mark { lamp: 1, enabled: false },
        Said::Stated,
    ]
}

/// A log's numbers at their ends.
fn ends() -> Vec<Log> {
    let numbers = [0, 1, 2, u32::MAX - 1, u32::MAX];
    let with = |file| numbers.into_iter().map(move |lines| Log { file, lines, sum: 0x0a1b_2c3d });
    numbers.into_iter().flat_map(with).collect()
}

const LINES: [&[u8]; 12] = [
    b"LOG 2 2 0a1b2c3d",
    b"LOG 2 2 0a1b2c3d 2026-11-27T05:45:09Z",
    b"O 1 0a1b2c3d",
    b"R 2 %1POWR ?",
    b"B 2 0d0aff",
    b"B 2",
    b"T 60",
    b"X 2",
    b"F 1",
    b"E 012000",
    b"M 2 0",
    b"S 12 0a1b2c3d power 3 lamps 3599 7",
];

fn played(random: &mut Random) -> Vec<Act> {
    let play = |line: Vec<u8>| Act::Play { log: HERE, line, lent: vec![0xA5; 136] };
    let mut all = Vec::new();
    for line in LINES {
        all.push(play(line.to_vec()));
        all.extend((0..line.len()).map(|cut| play(line[..cut].to_vec())));
        for place in 0..line.len() {
            for byte in (0..=255).filter(|byte| *byte >= b' ' || *byte % 8 == 5) {
                all.push(play([&line[..place], &[byte], &line[place + 1..]].concat()));
            }
            for byte in *b"0 \r" {
                all.push(play([&line[..place], &[byte], &line[place..]].concat()));
            }
        }
        all.extend((0..=255).map(|byte| play([line, &[byte]].concat())));
        for log in ends() {
            all.push(Act::Play { log, line: line.to_vec(), lent: vec![0; 136] });
        }
        for length in [0, 1, 9, 135, 136, 137, 200] {
            all.push(Act::Play { log: HERE, line: line.to_vec(), lent: random.memory(length) });
        }
    }
    let numbers = (0..34).map(|bit| 1 << bit).chain((0..12).map(|power| 10u64.pow(power)));
    for number in numbers.flat_map(|edge| [edge - 1, edge, edge + 1]) {
        for number in [format!("{number}"), format!("0{number}"), format!("{number:010}"), format!("+{number}")] {
            all.push(play(format!("T {number}").into_bytes()));
            let file: u64 = number.trim_start_matches('+').parse().expect("a number");
            let log = Log { file: (file as u32).wrapping_sub(1), ..HERE };
            let lent = vec![0; 136];
            all.push(Act::Play { log, line: format!("LOG 2 {number} 0a1b2c3d").into_bytes(), lent: lent.clone() });
            let log = Log { lines: file as u32, ..HERE };
            let line = format!("S {number} 0a1b2c3d power 3 lamps 3599 7").into_bytes();
            all.push(Act::Play { log, line, lent });
        }
    }
    for length in (0..300).chain(2040..2052).chain(4088..4100) {
        all.push(play([b"R 0 ", &vec![b'a'; length][..]].concat()));
        all.push(play([b"B 0 ", &vec![b'f'; length][..]].concat()));
    }
    for byte in 0..=255 {
        all.push(play(format!("B 0 {byte:02x}").into_bytes()));
        all.push(play(format!("B 0 61{byte:02x}0d").into_bytes()));
        all.push(play(format!("B 0 {byte:02x}0d").into_bytes()));
    }
    all
}

/// A chain of ten files, with stated lines at each end.
fn files_in_a_row(device: &Device) -> Case {
    let (device, _) = begun(device, None);
    let pass = |seconds| Part::Call(Act::Pass { seconds });
    let of_file = |number: u32| {
        let open = Part::Call(Act::Open { random: number, lent: vec![0; 136] });
        [Part::File(making::time(&mut Random::new(number.into()))), open, pass(1), pass(number), Part::State]
    };
    Case::one(device, Act::Keep { form: None, parts: (0..10).flat_map(of_file).collect() })
}
