//! Histories that leave nothing to chance: one of three files with every kind of line in it, whole; each of its lines taken
//! out, doubled, cut, and written in a way that says nothing; and what does not belong at several places of it. Then lines of
//! the first kind behind a first line that makes a history of them, or hardly not.

use super::recorded::{HARDLY, NEARLY};
use crate::compare::forms;
use crate::compare::recorded::making::kept;
use crate::face::{Act, Lent, Part};
use crate::reference::Projector;
use crate::reference::recorded::chain::shown_of;
use crate::reference::recorded::{Log, lines as entries};
use crate::reference::text::LF;
use crate::replay::history::{History, RIGHT};
use crate::replay::{device, lines, text_of};
use std::sync::LazyLock;

/// On the sample set-up.
pub static ON_SAMPLE: LazyLock<Vec<Vec<u8>>> = LazyLock::new(|| logs(None));

/// On a form: two lamps, W and C a second each.
pub static ON_FORM: LazyLock<Vec<Vec<u8>>> = LazyLock::new(|| logs(Some(&form())));

pub fn form() -> Vec<u8> {
    forms::of(&Lent { lamps: vec![5, 6], ..forms::least() })
}

fn logs(form: Option<&[u8]>) -> Vec<Vec<u8>> {
    let whole: Vec<Vec<u8>> = lines(&history(form)).map(<[u8]>::to_vec).collect();
    let mut all = vec![whole.concat()];
    for place in 0..whole.len() {
        let (before, line, after) = (whole[..place].concat(), &whole[place], whole[place + 1..].concat());
        let with = |lines: &[&[u8]]| [&before, &lines.concat()[..], &after].concat();
        all.push(with(&[]));
        all.push(with(&[line, line]));
        all.push([&before, text_of(line)].concat());
        all.push([&before, &line[..line.len() / 2]].concat());
        let in_other_ways = in_other_ways(text_of(line));
        let is_first = whole[..place].iter().all(|other| other[0] != line[0]);
        let kept = if is_first { in_other_ways.len() } else { 1 };
        all.extend(in_other_ways.into_iter().take(kept).map(|text| with(&[&text, b"\n"])));
    }
    for place in [1, 3, whole.len() / 2, whole.len() - 2] {
        let (projector, log) = there(form, &whole[..place]);
        let others = others(&projector, &log);
        all.extend(
            others
                .into_iter()
                .map(|text| [&whole[..place].concat(), &text, &b"\n"[..], &whole[place..].concat()].concat()),
        );
    }
    let first_kind = b"O 00000000\nR %1POWR 1\nT 60\nR %1LAMP ?\n";
    for first in NEARLY.iter().chain(HARDLY) {
        all.push(first.to_vec());
        all.push([first, &b"\n"[..], first_kind].concat());
    }
    all
}

/// Three files, in which two controllers switch the lamps on and off, a fault stands for a while, and places are opened and
/// closed so that each opening's place depends on what came before.
fn history(form: Option<&[u8]>) -> Vec<u8> {
    let open = |random| Part::Call(Act::Open { random, lent: vec![0; 136] });
    let receive = |place, bytes: &[u8]| Part::Call(Act::Receive { place, bytes: bytes.to_vec(), lent: vec![0; 136] });
    let pass = |seconds| Part::Call(Act::Pass { seconds });
    let fault = |mark| Part::Call(Act::SetFault { mark });
    let mark = |lamp, enabled| Part::Call(Act::SetMark { lamp, enabled });
    let close = |place| Part::Call(Act::Close { place });
    let parts = vec![
        Part::File(b"2026-11-27T05:45:09Z".to_vec()),
        open(0x0a1b_2c3d),
        mark(0, true),
        mark(1, false),
        fault(true),
        receive(0, b"%1POWR 1\r"),
        pass(7),
        fault(false),
        open(0xABCD_EF00),
        receive(1, b"%1PO"),
        receive(1, b"WR 1\r"),
        pass(70_000),
        Part::State,
        Part::File(Vec::new()),
        Part::Call(Act::SetErrors { digits: vec![0, 1, 2, 0, 0, 0] }),
        receive(0, b"%1ERST ?\r"),
        close(0),
        receive(1, b"\n\xFF \r"),
        receive(1, b""),
        pass(600),
        open(7),
        receive(0, b"%1POWR 0\r"),
        pass(60),
        Part::State,
        Part::File(b"~".to_vec()),
        receive(1, b"%1POWR 1\r"),
        pass(30),
        close(1),
        Part::State,
        pass(1),
    ];
    let device = device(form).expect("it loads").record();
    kept(&device, form, parts).text
}

fn there(form: Option<&[u8]>, before: &[Vec<u8>]) -> (Projector, Log) {
    let mut projector = device(form).expect("it loads");
    let mut history = History::begun(&RIGHT, form);
    before.iter().for_each(|line| drop(history.play(&mut projector, line)));
    (projector, history.log)
}

/// A line as somebody else might write it.
fn in_other_ways(text: &[u8]) -> Vec<Vec<u8>> {
    let number = text.iter().position(u8::is_ascii_digit).unwrap_or(text.len());
    let hex = match text {
        [b'R', b' ', place, b' ', text @ ..] => {
            let digits: String = text.iter().map(|byte| format!("{byte:02x}")).collect();
            [&b"B "[..], &[*place], b" ", digits.as_bytes(), b"0d"].concat()
        }
        _ => Vec::new(),
    };
    let in_file = if text.starts_with(b"LOG 2 ") { 6 } else { number };
    vec![
        [text, b" "].concat(),
        [text, b"\r"].concat(),
        [&text[..in_file], b"0", &text[in_file..]].concat(),
        [&text[..1], &text[1..].to_ascii_uppercase()].concat(),
        hex,
        text.to_ascii_lowercase(),
        [b" ", text].concat(),
        text.iter().flat_map(|&byte| if byte == b' ' { vec![b' ', b' '] } else { vec![byte] }).collect(),
    ]
}

/// What does not belong where a log stands so.
fn others(projector: &Projector, log: &Log) -> Vec<Vec<u8>> {
    let Log { file, lines, sum } = *log;
    let shown = String::from_utf8(shown_of(projector)).expect("it is ASCII");
    let mut other_power = shown.clone().into_bytes();
    other_power[6] = if other_power[6] == b'0' { b'1' } else { b'0' };
    let other_power = String::from_utf8(other_power).expect("it is ASCII");
    let others = [
        format!("S {lines} {sum:08x} {shown}"),
        format!("S {} {sum:08x} {shown}", lines + 1),
        format!("S {lines} {:08x} {shown}", sum ^ 1),
        format!("S {lines} {sum:08x} {shown}0"),
        format!("S {lines} {sum:08x} {other_power}"),
        format!("S {lines} {sum:08x} power"),
        format!("S {lines} {sum:08x} "),
        format!("S {lines} {sum:08x}"),
        format!("LOG 2 {} {sum:08x}", file + 1),
        format!("LOG 2 {} {sum:08x}", file + 2),
        format!("LOG 2 {file} {sum:08x}"),
        format!("LOG 2 {} {:08x}", file + 1, sum ^ 0x8000_0000),
        "O 0 00000000".to_string(),
        "O 3 00000000".to_string(),
        "X 3".to_string(),
        "R 3 %1POWR 1".to_string(),
        "B 2".to_string(),
        "M 1 1".to_string(),
        "M 1 0".to_string(),
        "M 8 1".to_string(),
        "M 9 1".to_string(),
        "M 0 1".to_string(),
        "E 333333".to_string(),
        "F 1".to_string(),
        "T 0".to_string(),
        "T 060".to_string(),
        "T 4294967296".to_string(),
        String::new(),
        "O 00000000".to_string(),
        "?".to_string(),
    ];
    others.into_iter().map(String::into_bytes).chain([vec![b'R'; entries::LONGEST + 1], vec![LF]]).collect()
}
