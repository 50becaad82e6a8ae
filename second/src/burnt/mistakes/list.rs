//! All of them, each with what it gets wrong.

use super::Wrong::{self, Call, Log, Plays, Prints, Takes, Tells};
use crate::burnt::{RIGHT, Steps, Stretch, burns, mark};
use crate::reference::Power;
use crate::reference::recorded::{self, chain::make};
use crate::reference::rules::Mistake;
use crate::reference::text::LF;
use crate::replay::{Event, device, event, history, lines, replayed_by, replayed_on, sample, text_of};
use std::mem::replace;

pub const BURNT: &[(&str, Wrong)] = &[
    // "exactly the seconds that demand 3's history puts in warm-up or power-on with its mark set"
    ("warm-up is not counted", Takes(Steps { burns: |power, enabled| enabled && power == Power::On, ..RIGHT })),
    ("cooling is counted", Takes(Steps { burns: |power, enabled| enabled && power != Power::Off, ..RIGHT })),
    ("a lamp burns whatever its mark", Takes(Steps { burns: |power, _| burns(power, true), ..RIGHT })),
    (
        "warm-up and power-on are two stretches",
        Tells(|device, numbers| {
            let [lamp, from, to] = *numbers else { return None };
            let warm = from + u128::from(device.set_up.warm);
            (warm < to).then(|| format!("lamp {lamp} from {from} to {warm}\nlamp {lamp} from {warm} to {to}"))
        }),
    ),
    // "`M`, a space, a lamp's number from 1, a space, 0 or 1, the mark call .."
    (
        "M numbers lamps from 0",
        Takes(Steps {
            mark: |text| match *text {
                [b'M', b' ', lamp @ b'0'..=b'9', b' ', mark @ b'0'..=b'1'] => {
                    Some((usize::from(lamp - b'0'), mark > b'0'))
                }
                _ => None,
            },
            ..RIGHT
        }),
    ),
    ("what follows the mark in an M line is passed over", Takes(Steps { mark: |text| mark(text.get(..5)?), ..RIGHT })),
    (
        "a byte of an M line's lamp is looked at",
        Takes(Steps {
            mark: |text| {
                let (lamp, mark) = str::from_utf8(text).ok()?.strip_prefix("M ")?.split_once(' ')?;
                let lamp: u64 = lamp.parse().ok().filter(|lamp| *lamp as u8 > 0)?;
                ["0", "1"].contains(&mark).then(|| (usize::from(lamp as u8 - 1), mark == "1"))
            },
            ..RIGHT
        }),
    ),
    (
        "a mark is set and cleared while the power is not off",
        Takes(Steps {
            set_mark: |projector, lamp, enabled| {
                let power = replace(&mut projector.power, Power::Off);
                let given = projector.set_mark(lamp, enabled);
                projector.power = power;
                given
            },
            ..RIGHT
        }),
    ),
    ("a mark is set and cleared in cooling", Call(Mistake::MarkedInCooling)),
    ("the last mark is cleared", Call(Mistake::LastMarkCleared)),
    // "The device is .. sample set-up, or the one of a stored form .."
    (
        "a form of version 1 loads with no mark set",
        Takes(Steps {
            device: |form| {
                let mut loaded = device(form)?;
                if form.is_some_and(|form| form[0] == 1) {
                    loaded.enabled.fill(false);
                }
                Ok(loaded)
            },
            ..RIGHT
        }),
    ),
    (
        "a form that does not load leaves the sample set-up",
        Takes(Steps { device: |form| device(form).or_else(|_| Ok(sample())), ..RIGHT }),
    ),
    (
        "a form's lamps start at 0",
        Takes(Steps {
            device: |form| {
                let mut loaded = device(form)?;
                loaded.lamps.fill(0);
                Ok(loaded)
            },
            ..RIGHT
        }),
    ),
    // "in seconds since the log began", "as soon as a stretch has ended"
    (
        "seconds are counted from the first opening",
        Log(|log| {
            let passes = |line: &[u8]| matches!(event(text_of(line)), Some(Event::Pass(_)));
            let opens = |line: &[u8]| matches!(event(text_of(line)), Some(Event::Open(_)));
            let first = lines(log).position(opens).unwrap_or(usize::MAX);
            let read = lines(log).enumerate().filter(|(place, line)| *place > first || !passes(line));
            read.flat_map(|(_, line)| line.to_vec()).collect()
        }),
    ),
    (
        "a stretch's seconds have 32 bits",
        Tells(|_, numbers| {
            let [lamp, from, to] = *numbers else { return None };
            Some(format!("lamp {lamp} from {} to {}", from as u32, to as u32))
        }),
    ),
    (
        "a stretch is told up to its last second",
        Tells(|_, numbers| {
            let [lamp, from, to] = *numbers else { return None };
            Some(format!("lamp {lamp} from {from} to {}", to - 1))
        }),
    ),
    (
        "stretches are told lamp by lamp",
        Prints(|out| {
            let (mut stretches, sums): (Vec<&str>, Vec<&str>) = out.lines().partition(|line| line.contains("from"));
            stretches.sort_by_key(|line| line.split(' ').nth(1));
            [stretches, sums].concat().iter().map(|line| format!("{line}\n")).collect()
        }),
    ),
    // "at the end of the log a stretch still burning is told"; "A stretch with no second is not printed."
    ("a stretch is not told at the log's end", Takes(Steps { last: |_, _, _| None, ..RIGHT })),
    (
        "a stretch with no second is told",
        Takes(Steps {
            last: |lamp, burns, second| lamp.stretch.or(burns.then_some(Stretch { from: second, to: second })),
            ..RIGHT
        }),
    ),
    (
        "a last line without LF is dropped",
        Log(|log| lines(log).filter(|line| line.ends_with(&[LF])).flatten().copied().collect()),
    ),
    // "`burnt` is the sum of the lengths (also where the lamp's own counter stopped at its limit)"
    (
        "what a lamp burnt stops at the limit",
        Tells(|_, numbers| {
            let [lamp, start, _, now] = *numbers else { return None };
            Some(format!("lamp {lamp} start {start} burnt {} now {now}", now - start))
        }),
    ),
    ("a lamp's seconds pass the limit", Call(Mistake::LampNotStopped)),
    // RULES, History of a board
    ("no log is a history", Takes(Steps { history: history::Steps { is_history: |_| false, ..WHOLE }, ..RIGHT })),
    (
        "a history's line that was cut is played",
        Takes(Steps { history: history::Steps { text: |line| Some(text_of(line)), ..WHOLE }, ..RIGHT }),
    ),
    (
        "what follows a line that does not belong is played",
        Takes(Steps { history: history::Steps { passes_over: |_| true, ..WHOLE }, ..RIGHT }),
    ),
    (
        "a history's sum is that of the sample set-up's form",
        Takes(Steps { history: history::Steps { begun: |_| history::begun(None), ..WHOLE }, ..RIGHT }),
    ),
    ("a gap in a chain is passed over", Call(Mistake::GapPassedOver)),
    ("of a chain the first file is played alone", Log(first_file)),
    ("a stated line is not compared", Call(Mistake::StatedNotCompared)),
    ("a history's line of the fault mark changes nothing", Call(Mistake::FaultLineIgnored)),
    ("a history numbers lamps from 0", Call(Mistake::LampsRecordedFrom0)),
    (
        "a history's calls at place 0 are made alone",
        Takes(Steps {
            make: |projector, call| match call {
                recorded::Call::Received { place: 1.., .. } => Ok(Vec::new()),
                _ => make(projector, call),
            },
            ..RIGHT
        }),
    ),
    ("a history's seconds are not added", Takes(Steps { passed: |_| 0, ..RIGHT })),
    ("a history's seconds have 16 bits", Takes(Steps { passed: |seconds| seconds & 0xFFFF, ..RIGHT })),
    (
        "that a line does not belong is not told",
        Prints(|out| out.lines().filter(|line| !line.starts_with("! line")).map(|line| format!("{line}\n")).collect()),
    ),
    (
        "nothing else is told where a line does not belong",
        Prints(|out| match out.lines().last() {
            Some(words) if words.starts_with("! line") => format!("{words}\n"),
            _ => out.to_string(),
        }),
    ),
];

const WHOLE: history::Steps = history::RIGHT;

/// A history up to its second header; a log of the first kind as it is.
fn first_file(log: &[u8]) -> Vec<u8> {
    let mut headers = 0;
    let first = lines(log).take_while(|line| {
        headers += usize::from(history::is_history(line));
        headers < 2 || !history::is_history(log)
    });
    first.flatten().copied().collect()
}

/// `replay` takes the same argument, and without it plays on the sample set-up (RULES, Floor log).
pub const REPLAY: &[(&str, Wrong)] = &[
    ("replay passes its form over", Plays(|_, log| replayed_on(None, log))),
    (
        "replay plays on the sample set-up where a form does not load",
        Plays(|form, log| replayed_on(form.filter(|&form| device(Some(form)).is_ok()), log)),
    ),
    (
        "replay takes M lines too",
        Plays(|form, log| {
            let read = |line: &[u8]| if mark(text_of(line)).is_some() { b"T 0\n".to_vec() } else { line.to_vec() };
            replayed_on(form, &lines(log).flat_map(read).collect::<Vec<u8>>())
        }),
    ),
    (
        "a history's sum is that of the sample set-up's form",
        Plays(|form, log| replayed_by(&history::Steps { begun: |_| history::begun(None), ..WHOLE }, form, log)),
    ),
    ("of a chain the first file is played alone", Plays(|form, log| replayed_on(form, &first_file(log)))),
];
