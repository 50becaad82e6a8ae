//! The recorded log (RULES, History of a board): what a host keeps of it, what a line is asked to say, and a log that is kept
//! through a history of calls.

use super::{Act, Answer, Changed, Device, Side, Written};
use crate::reference::recorded::kept::{added, said_of};
use crate::reference::rules::unmistaken;

#[repr(C)]
#[derive(Clone, Copy, PartialEq, Eq, Debug)]
pub struct Log {
    pub file: u32,
    pub lines: u32,
    pub sum: u32,
}

/// What the next line is to say; places and lamps are numbered from 0. What a record shows is asked of the one that is lent.
#[derive(Clone, PartialEq, Eq, Debug)]
pub enum Said {
    File { time: Vec<u8> },
    Opened { place: usize, random: u32 },
    Received { place: usize, bytes: Vec<u8> },
    Passed { seconds: u32 },
    Closed { place: usize },
    Fault { mark: bool },
    Errors { digits: Vec<u8> },
    Mark { lamp: usize, enabled: bool },
    Stated,
}

/// Of a log that is kept: a call that is made, and recorded where it is served; a file that is begun at this time; a line
/// that states what the record shows.
#[derive(Clone, PartialEq, Eq, Debug)]
pub enum Part {
    Call(Act),
    File(Vec<u8>),
    State,
}

/// A log that was kept, all its files one after the other, and what is left: the record that the calls gave, and the replies;
/// then the same when the log was played again.
#[derive(Clone, PartialEq, Eq, Debug)]
pub struct Kept {
    pub text: Vec<u8>,
    /// The first number that refused a line, 0 where none was.
    pub number: u32,
    pub log: Log,
    pub device: Device,
    pub replies: Vec<u8>,
    pub again: Again,
}

#[derive(Clone, PartialEq, Eq, Debug)]
pub struct Again {
    /// The number that refused a line, and how many were played before that.
    pub number: u32,
    pub lines: usize,
    pub log: Log,
    pub device: Device,
    pub replies: Vec<u8>,
}

/// "a host hands at most so many to one pj_receive".
const MOST_BYTES: usize = 2046;

/// Memory for a line, and for a stored form.
const LINE_ROOM: usize = 4097;
const FORM_ROOM: usize = 4504;

/// A host at its work: on one of the two programs.
struct Host<'a, S: Side + ?Sized> {
    side: &'a mut S,
    kept: Kept,
    /// Seconds that have no line yet.
    seconds: Option<u32>,
}

/// The log of these parts, from the record of a stored form on; without one, from this record on, which is stored first.
pub fn keep<S: Side + ?Sized>(side: &mut S, device: &Device, form: Option<&[u8]>, parts: &[Part]) -> Answer {
    let stored = match side.call(device, &Act::Store { lent: vec![0; FORM_ROOM] }) {
        Answer::Written(written, form) => form[..written.length].to_vec(),
        _ => unreachable!("it stores"),
    };
    let form = form.unwrap_or(&stored);
    let Answer::Changed(loaded) = side.call(device, &Act::Load { bytes: form.to_vec() }) else {
        unreachable!("it loads")
    };
    let log = begun(side, &loaded.device, form);
    let again = Again { number: 0, lines: 0, log, device: loaded.device, replies: Vec::new() };
    let kept = Kept { text: Vec::new(), number: 0, log, device: loaded.device, replies: Vec::new(), again };
    let mut host = Host { side, kept, seconds: None };
    for part in parts {
        match part {
            Part::Call(act) => host.make(act),
            Part::File(time) => host.write(&Said::File { time: time.clone() }),
            Part::State => host.write(&Said::Stated),
        }
    }
    host.write_seconds();
    host.play_again();
    Answer::Kept(Box::new(host.kept))
}

fn begun<S: Side + ?Sized>(side: &mut S, device: &Device, form: &[u8]) -> Log {
    match side.call(device, &Act::LogBegun { form: form.to_vec() }) {
        Answer::Begun(log) => log,
        _ => unreachable!("it begins"),
    }
}

impl<S: Side + ?Sized> Host<'_, S> {
    /// Makes a call, one that receives in parts, until all is taken or one is refused, and records each that is served.
    fn make(&mut self, act: &Act) {
        let Act::Receive { place, bytes, lent } = act else {
            self.call(act);
            return;
        };
        let mut rest = &bytes[..];
        loop {
            let part = &rest[..rest.len().min(MOST_BYTES)];
            let answer = self.call(&Act::Receive { place: *place, bytes: part.to_vec(), lent: lent.clone() });
            let Answer::Received(received, _) = answer else { unreachable!("it receives") };
            rest = &rest[received.taken..];
            if rest.is_empty() || received.taken == 0 {
                break;
            }
        }
    }

    fn call(&mut self, act: &Act) -> Answer {
        let answer = self.side.call(&self.kept.device, act);
        // the mistakes are those of the reference program alone
        let said = if self.side.cuts() { unmistaken(|| said_of(act, &answer)) } else { said_of(act, &answer) };
        if let Some(device) = answer.device() {
            self.kept.device = *device;
        }
        self.kept.replies.extend(reply(&answer));
        match said {
            Some(Said::Passed { seconds }) => self.add(seconds),
            Some(said) => self.write(&said),
            None => (),
        }
        answer
    }

    fn add(&mut self, seconds: u32) {
        let add = || self.seconds.map_or(Some(seconds), |before| added(before, seconds));
        let together = if self.side.cuts() { unmistaken(add) } else { add() };
        if together.is_none() {
            self.write_seconds();
        }
        self.seconds = together.or(Some(seconds));
    }

    fn write_seconds(&mut self) {
        if let Some(seconds) = self.seconds.take() {
            self.line(&Said::Passed { seconds });
        }
    }

    fn write(&mut self, said: &Said) {
        self.write_seconds();
        self.line(said);
    }

    fn line(&mut self, said: &Said) {
        let act = Act::Record { log: self.kept.log, said: said.clone(), lent: vec![0; LINE_ROOM] };
        match self.side.call(&self.kept.device, &act) {
            Answer::Recorded(log, Written { number: 0, length }, out) => {
                self.kept.log = log;
                self.kept.text.extend(&out[..length.min(out.len())]);
            }
            Answer::Recorded(_, written, _) if self.kept.number == 0 => self.kept.number = written.number,
            _ => (),
        }
    }

    /// Plays the log again, up to a line that is refused.
    fn play_again(&mut self) {
        let Kept { text, again, .. } = &mut self.kept;
        for line in text.split_inclusive(|&byte| byte == b'\n') {
            let line = line.strip_suffix(b"\n").unwrap_or(line).to_vec();
            let act = Act::Play { log: again.log, line, lent: vec![0; 136] };
            let Answer::Played(device, log, written, out) = self.side.call(&again.device, &act) else { return };
            if written.number != 0 {
                again.number = written.number;
                return;
            }
            (again.lines, again.log, again.device) = (again.lines + 1, log, *device);
            again.replies.extend(&out[..written.length.min(out.len())]);
        }
    }
}

/// What a call that is served replies.
fn reply(answer: &Answer) -> &[u8] {
    match answer {
        Answer::Opened(opened, out) if opened.number == 0 => &out[..opened.length.min(out.len())],
        Answer::Received(received, out) if received.number == 0 => &out[..received.length.min(out.len())],
        Answer::Changed(Changed { .. }) => &[],
        _ => &[],
    }
}
