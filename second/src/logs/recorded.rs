//! Logs of the second kind (RULES, History of a board): as a host kept them, and cut, or with lines taken out, doubled,
//! changed; of another form, with a gap in the chain, with other sums.

use crate::compare::random::Random;
use crate::compare::recorded::damage;
use crate::compare::recorded::making::{Seconds, kept, parts};
use crate::reference::recorded::{Entry, lines as entries};
use crate::reference::text::LF;
use crate::replay::history::{History, RIGHT, is_history};
use crate::replay::{device, lines, sample, text_of};

/// On the device of this form, or on the sample set-up; two in five are whole.
pub fn log(random: &mut Random, form: Option<&[u8]>, seconds: Seconds) -> Vec<u8> {
    let projector = device(form).unwrap_or_else(|_| sample());
    let form = form.filter(|form| device(Some(form)).is_ok());
    let most = random.pick(&[3, 20, 60, 120]);
    let parts = parts(random, projector.record(), most, seconds);
    let log = kept(&projector.record(), form, parts).text;
    damaged(random, form, log)
}

fn damaged(random: &mut Random, form: Option<&[u8]>, mut log: Vec<u8>) -> Vec<u8> {
    let mut all: Vec<Vec<u8>> = lines(&log).map(<[u8]>::to_vec).collect();
    let place = random.below(all.len());
    let other = random.below(all.len());
    match random.below(20) {
        0..=7 => return log,
        8 | 9 => {
            log.truncate(random.below(log.len() + 1));
            return log;
        }
        10 => drop(all.remove(place)),
        11 => all.insert(place, all[place].clone()),
        12 => all.swap(place, other),
        13 => change(random, &mut all[place], damage::changed),
        14 => change(random, &mut all[place], damage::changed_number),
        15 | 18 => all.insert(place, another(random, form, &all, place)),
        16 => another_sum(random, &mut all),
        17 => gap(random, &mut all),
        _ => all.iter_mut().for_each(|line| line.insert(line.len() - 1, random.pick(b"\r\r "))),
    }
    all.concat()
}

/// The text of a line, its LF left.
fn change(random: &mut Random, line: &mut Vec<u8>, change: fn(&mut Random, Vec<u8>) -> Vec<u8>) {
    *line = change(random, text_of(line).to_vec());
    line.push(LF);
}

/// A line that comes before this one, made for where the log stands there.
fn another(random: &mut Random, form: Option<&[u8]>, all: &[Vec<u8>], place: usize) -> Vec<u8> {
    let mut projector = device(form).expect("it loads");
    let mut history = History::begun(&RIGHT, form);
    all[..place].iter().for_each(|line| drop(history.play(&mut projector, line)));
    let texts: Vec<&[u8]> = all.iter().map(|line| text_of(line)).collect();
    let mut line = damage::line(random, &texts, place, &history.log, &projector.record());
    line.push(LF);
    line
}

/// Of a header or a stated line.
fn another_sum(random: &mut Random, all: &mut [Vec<u8>]) {
    let with_sum: Vec<usize> = (0..all.len()).filter(|&place| matches!(all[place][0], b'L' | b'S')).collect();
    let line = &mut all[random.pick(&with_sum)];
    let bit = 1 << random.below(32);
    let entry = match entries::entry(text_of(line)) {
        Some(Entry::Header { file, sum, time }) => Entry::Header { file, sum: sum ^ bit, time },
        Some(Entry::Stated { lines, sum, shown }) => Entry::Stated { lines, sum: sum ^ bit, shown },
        _ => return,
    };
    *line = entries::text(&entry).expect("it is written again");
    line.push(LF);
}

/// A file left out, or without its header; or one doubled.
fn gap(random: &mut Random, all: &mut Vec<Vec<u8>>) {
    let headers: Vec<usize> = (0..all.len()).filter(|&place| is_history(&all[place])).collect();
    let first = random.pick(&headers);
    let next = headers.iter().copied().find(|&place| place > first).unwrap_or(all.len());
    match random.below(4) {
        0 => drop(all.drain(first..next)),
        1 => drop(all.remove(first)),
        2 => {
            let file: Vec<Vec<u8>> = all[first..next].to_vec();
            all.splice(next..next, file).for_each(drop);
        }
        _ => drop(all.drain(first + 1..next)),
    }
}

/// What a history is: whole, or why a line does not belong.
pub const KINDS: [&str; 9] = [
    "a history, whole",
    "no line end",
    "no such line",
    "not the next file",
    "another sum",
    "another count of lines",
    "the record shows something else",
    "another place was opened",
    "refused",
];

/// By what is printed of it.
pub fn kind(out: &[u8]) -> &'static str {
    let last = lines(out).last().and_then(|line| str::from_utf8(text_of(line)).ok()).unwrap_or_default();
    match last.strip_prefix("! line ").and_then(|words| words.split_once(": ")) {
        Some((_, words)) => KINDS.into_iter().find(|kind| words.starts_with(kind)).expect("it is one of them"),
        None => KINDS[0],
    }
}

/// What looks like a header's first line and makes no history.
pub const NEARLY: &[&[u8]] = &[
    b"LOG",
    b"LOG2 1 00000000",
    b"log 2 1 00000000",
    b"Log 2 1 00000000",
    b" LOG 2 1 00000000",
    b"LOG\t2 1 00000000",
    b"LOG\r",
    b"LO",
    b"L",
    b"LOGS 2 1 00000000",
    b"LOF 2 1 00000000",
    b"\xEF\xBB\xBFLOG 2 1 00000000",
    b"\0LOG 2 1 00000000",
    b"\nLOG 2 1 00000000",
    b"?\nLOG 2 1 00000000",
];

/// What makes a history whose first line does not belong.
pub const HARDLY: &[&[u8]] = &[
    b"LOG ",
    b"LOG  2 1 00000000",
    b"LOG 1 1 00000000",
    b"LOG 3 1 00000000",
    b"LOG 2 1 00000000",
    b"LOG 2 2 00000000",
    b"LOG 2 0 00000000",
    b"LOG 2 1 0000000",
    b"LOG 2 1 00000000\r",
    b"LOG 2",
    b"LOG R %1POWR 1",
    b"LOG \xFF",
];
