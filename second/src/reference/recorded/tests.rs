//! RULES, History of a board, line by line.

use super::chain::{make, shown_of};
use super::crc::{crc32, crc32_on};
use super::lines::{entry, text};
use super::{Call, Entry, Log, Why};
use crate::compare::random::Random;
use crate::compare::recorded::{damage, making};
use crate::reference::Projector;
use crate::replay::sample;

fn written(entry: Entry) -> String {
    String::from_utf8(text(&entry).expect("a line says it")).unwrap()
}

/// The table of lines.
#[test]
fn table() {
    let sum = 0x0a1b_2c3d;
    let time = b"2026-11-27T05:45:09Z".to_vec();
    let received = |place, bytes: &[u8]| Call::Received { place, bytes: bytes.to_vec() };
    for (line, said) in [
        ("LOG 2 1 0a1b2c3d", Entry::Header { file: 1, sum, time: Vec::new() }),
        ("LOG 2 4294967295 0a1b2c3d 2026-11-27T05:45:09Z", Entry::Header { file: u32::MAX, sum, time }),
        ("O 2 0a1b2c3d", Entry::Call(Call::Opened { place: 2, random: sum })),
        ("R 2 %1POWR 1", Entry::Call(received(2, b"%1POWR 1\r"))),
        ("R 0  a", Entry::Call(received(0, b" a\r"))),
        ("B 2 0d0aff", Entry::Call(received(2, b"\r\n\xFF"))),
        ("B 3", Entry::Call(received(3, b""))),
        ("B 1 0d", Entry::Call(received(1, b"\r"))),
        ("B 1 61200d", Entry::Call(received(1, b"a \r"))),
        ("B 1 610d61", Entry::Call(received(1, b"a\ra"))),
        ("T 60", Entry::Call(Call::Passed(60))),
        ("T 4294967295", Entry::Call(Call::Passed(u32::MAX))),
        ("X 2", Entry::Call(Call::Closed { place: 2 })),
        ("F 1", Entry::Call(Call::Fault(true))),
        ("F 0", Entry::Call(Call::Fault(false))),
        ("E 012000", Entry::Call(Call::Errors([0, 1, 2, 0, 0, 0]))),
        ("M 2 0", Entry::Call(Call::Mark { lamp: 1, enabled: false })),
        ("M 2 1", Entry::Call(Call::Mark { lamp: 1, enabled: true })),
        ("S 12 0a1b2c3d power 1 lamps 3600", Entry::Stated { lines: 12, sum, shown: b"power 1 lamps 3600".to_vec() }),
    ] {
        assert_eq!(written(said.clone()), line);
        assert_eq!(entry(line.as_bytes()), Some(said));
    }
}

/// "No two entries have one line, and a line says one entry, the one that it was written for, or none."
#[test]
fn lines_that_say_nothing() {
    for line in [
        "",
        "T",
        "T ",
        "T 060",
        "T 00",
        "T 4294967296",
        "T +1",
        "T 1 ",
        "T 1\r",
        " T 1",
        "t 1",
        "X",
        "X 4",
        "X 02",
        "F 2",
        "F 01",
        "E 01200",
        "E 0120000",
        "E 012003",
        "M 0 1",
        "M 9 1",
        "M 02 0",
        "M 2 2",
        "M 2",
        "O 4 0a1b2c3d",
        "O 2 0A1B2C3D",
        "O 2 a1b2c3d",
        "O 2 00a1b2c3d",
        "O 0a1b2c3d",
        "R 2",
        "R 2 ",
        "R 2 a ",
        "R 4 a",
        "R 02 a",
        "B 2 ",
        "B 2 0",
        "B 2 0D",
        "B 2 610d",
        "B 2 0d 0a",
        "LOG 1 1 0a1b2c3d",
        "LOG 2 0 0a1b2c3d",
        "LOG 2 01 0a1b2c3d",
        "LOG 2 1 0a1b2c3d ",
        "LOG 2 1 0a1b2c3d a b",
        "LOG 2 4294967296 0a1b2c3d",
        "LOG 2 1 0a1b2c3",
        "S 12 0a1b2c3d",
        "S 12 0a1b2c3d ",
        "S 012 0a1b2c3d power 1 lamps 3600",
        "S 12 0a1b2c3d power 1 lamps ",
        "R %1POWR 1",
    ] {
        assert_eq!(entry(line.as_bytes()), None, "{line}");
    }
    let longest = |length: usize| entry(&[b"R 1 ", &vec![b'a'; length][..]].concat());
    assert!(longest(2045).is_some() && longest(2046).is_none());
    let longest = |bytes: usize| entry(&[b"B 1 ", "61".repeat(bytes).as_bytes()].concat());
    assert!(longest(2046).is_some() && longest(2047).is_none());
}

/// What is written is read back, and no other entry has its line.
#[test]
fn lines_are_read_back() {
    let mut random = Random::new(1);
    let mut says = 0;
    for _ in 0..200 {
        let (device, form) = making::started(&mut random);
        let parts = making::parts(&mut random, device, 40, &mut making::any_seconds);
        let kept = making::kept(&device, form.as_deref(), parts);
        assert_eq!((kept.number, kept.again.number), (0, 0), "{}", kept.text.escape_ascii());
        let whole = kept.text.strip_suffix(b"\n").expect("LF ends each line");
        for line in whole.split(|&byte| byte == b'\n') {
            let said = entry(line).unwrap_or_else(|| panic!("{} says nothing", line.escape_ascii()));
            assert_eq!(text(&said).as_deref(), Some(line));
            let changed = damage::changed(&mut random, line.to_vec());
            if let Some(other) = entry(&changed) {
                assert_eq!(text(&other), Some(changed.clone()));
                assert_eq!(other == said, changed == line);
                says += 1;
            }
        }
    }
    assert!(says > 500, "{says}");
}

/// "What is recorded of any calls, from any record on, plays back".
#[test]
fn logs_play_back() {
    let mut random = Random::new(2);
    for _ in 0..300 {
        let (device, form) = making::started(&mut random);
        let parts = making::parts(&mut random, device, 60, &mut making::any_seconds);
        let kept = making::kept(&device, form.as_deref(), parts);
        let lines = kept.text.iter().filter(|&&byte| byte == b'\n').count();
        assert_eq!((kept.again.lines, kept.again.number), (lines, 0), "{}", kept.text.escape_ascii());
        assert!(kept.again.device == kept.device && kept.again.replies == kept.replies && kept.again.log == kept.log);
    }
}

/// "the header of file 1 has the sum of the form", "12 lines came since the header".
#[test]
fn a_chain() {
    let projector = sample();
    let mut log = Log::begun(b"form");
    let mut bytes = b"form".to_vec();
    let why = |log: &Log, line: &str| log.fits(&projector, line.as_bytes()).err();
    assert_eq!(why(&log, "T 60"), Some(Why::OtherFile));
    assert_eq!(why(&log, "S 0 00000000 power 0 lamps 0"), Some(Why::OtherFile));
    assert_eq!(why(&log, &format!("LOG 2 2 {:08x}", crc32(b"form"))), Some(Why::OtherFile));
    assert_eq!(why(&log, "LOG 2 1 00000000"), Some(Why::OtherSum));
    let mut go = |log: &mut Log, line: &str| {
        let said = log.fits(&projector, line.as_bytes()).unwrap_or_else(|why| panic!("{line}: {why}"));
        *log = log.past(&said, line.as_bytes()).expect("it counts");
        bytes.extend(line.bytes().chain([b'\n']));
        assert_eq!(log.sum, crc32(&bytes));
    };
    go(&mut log, &format!("LOG 2 1 {:08x}", crc32(b"form")));
    assert_eq!((log.file, log.lines), (1, 0));
    go(&mut log, "F 1");
    let stated = |lines: u32, sum: u32, shown: &str| format!("S {lines} {sum:08x} {shown}");
    assert_eq!(why(&log, &stated(2, log.sum, "power 0 lamps 0")), Some(Why::OtherCount));
    assert_eq!(why(&log, &stated(1, 1, "power 0 lamps 0")), Some(Why::OtherSum));
    assert_eq!(why(&log, &stated(1, log.sum, "power 0 lamps 1")), Some(Why::OtherState));
    let line = stated(1, log.sum, "power 0 lamps 0");
    go(&mut log, &line);
    assert_eq!((log.file, log.lines), (1, 2));
    let line = format!("LOG 2 2 {:08x} now", log.sum);
    go(&mut log, &line);
    assert_eq!((log.file, log.lines), (2, 0));
    assert_eq!(why(&log, &line), Some(Why::OtherFile));
    let last = Log { file: u32::MAX, lines: u32::MAX, sum: 0 };
    assert_eq!(why(&last, "LOG 2 1 00000000"), Some(Why::OtherFile));
    assert!(why(&last, "T 1").is_some());
}

/// "The history does not belong to that record if a call is refused, if an opening gets another place than its line says".
#[test]
fn calls_that_do_not_belong() {
    let mut projector = sample();
    let before = projector.clone();
    let why = |projector: &mut Projector, call: Call| make(projector, &call).err();
    assert_eq!(why(&mut projector, Call::Opened { place: 1, random: 0 }), Some(Why::OtherPlace));
    assert_eq!(why(&mut projector, Call::Closed { place: 0 }), Some(Why::Refused(4)));
    assert_eq!(why(&mut projector, Call::Received { place: 3, bytes: Vec::new() }), Some(Why::Refused(4)));
    assert_eq!(why(&mut projector, Call::Mark { lamp: 1, enabled: true }), Some(Why::Refused(3)));
    assert_eq!(projector, before);
    for place in 0..4 {
        assert_eq!(make(&mut projector, &Call::Opened { place, random: 0 }), Ok(b"PJLINK 0\r".to_vec()));
    }
    assert_eq!(why(&mut projector, Call::Opened { place: 3, random: 0 }), Some(Why::Refused(6)));
    let power = Call::Received { place: 3, bytes: b"%1POWR 1\r".to_vec() };
    assert_eq!(make(&mut projector, &power), Ok(b"%1POWR=OK\r".to_vec()));
    assert_eq!(why(&mut projector, Call::Mark { lamp: 0, enabled: true }), Some(Why::Refused(7)));
    assert_eq!(make(&mut projector, &Call::Passed(60)), Ok(Vec::new()));
    assert_eq!(shown_of(&projector), b"power 1 lamps 60");
}

/// "A change of up to four bytes side by side, which leaves the length, changes the sum."
#[test]
fn a_change_shows() {
    let mut random = Random::new(3);
    for _ in 0..2000 {
        let length = random.from_to(4, 80);
        let bytes = random.bytes_from(0, length);
        let mut changed = bytes.clone();
        let place = random.below(length - 3);
        (place..place + 4).for_each(|place| changed[place] = random.byte());
        assert_eq!(crc32(&bytes) == crc32(&changed), bytes == changed);
        assert_eq!(crc32_on(crc32(&bytes[..place]), &bytes[place..]), crc32(&bytes));
    }
}
