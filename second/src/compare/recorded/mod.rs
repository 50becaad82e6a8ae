//! The recorded log (RULES, History of a board): what the recorder writes, what a line says where a log stands, and logs that
//! a host keeps and plays again. These cases take their random numbers from a source of their own.

pub mod damage;
mod every;
pub mod making;
mod shrink;

pub use shrink::simpler;

use super::random::Random;
use super::{Case, Compared, Run, records};
use crate::face::{Act, Device, Log, Side};
use crate::reference::recorded::calls::{LINE_ROOM, play};
use crate::reference::rules::unmistaken;
use making::{kept, said, started};

impl<B: Side> Run<'_, B> {
    /// A little of everything.
    pub(super) fn round_3(&mut self) -> Compared {
        for _ in 0..2 {
            let random = &mut self.random_3;
            let (device, form) = started(random);
            let parts = making::parts(random, device, 40, &mut making::any_seconds);
            self.compare(Case::one(device, Act::Keep { form, parts }))?;
        }
        let form = any_form(&mut self.random_3);
        self.compare_call(Device::BLANK, Act::LogBegun { form })?;
        for _ in 0..24 {
            let random = &mut self.random_3;
            let device = if random.one_in(8) { records::damaged(random) } else { records::legal(random) };
            let (log, said) = (making::log(random), said(random, &device));
            let lent = line_memory(random);
            self.compare_call(device, Act::Record { log, said, lent })?;
        }
        let cases = played(&mut self.random_3);
        cases.into_iter().try_for_each(|case| self.compare(case))
    }

    /// What leaves nothing to chance.
    pub(super) fn every_3(&mut self) -> Compared {
        let cases = every::cases(&mut self.random_3);
        cases.into_iter().try_for_each(|case| self.compare(case))
    }
}

/// Any bytes; the sum is taken over whatever is lent.
fn any_form(random: &mut Random) -> Vec<u8> {
    let length = random.pick(&[0, 1, 100, 4504, 5000]);
    random.bytes_from(0, length)
}

/// Memory for a line: mostly enough, at times one byte short, at times with what its own line takes.
fn line_memory(random: &mut Random) -> Vec<u8> {
    let length = match random.below(16) {
        0 => LINE_ROOM - 1,
        1 => random.below(64),
        2 => random.from_to(LINE_ROOM, LINE_ROOM + 9),
        _ => LINE_ROOM,
    };
    random.memory(length)
}

/// A log that was kept, played up to some line; then that line, and others in its place, each where the log stands.
fn played(random: &mut Random) -> Vec<Case> {
    let (device, form) = started(random);
    let parts = making::parts(random, device, 24, &mut making::any_seconds);
    let kept = kept(&device, form.as_deref(), parts);
    let lines: Vec<&[u8]> = kept.text.split(|&byte| byte == b'\n').collect();
    let (start, log) = making::begun(&device, form.as_deref());
    let stop = random.below(lines.len());
    let (mut there, mut log) = (start, log);
    let mut acts = Vec::new();
    for line in &lines[..stop] {
        acts.push(Act::Play { log, line: line.to_vec(), lent: random.memory(136) });
        (log, there) = past(&log, &there, line);
    }
    let mut all = vec![Case::of(start, acts)];
    let others: Vec<Vec<u8>> = (0..12).map(|_| damage::line(random, &lines, stop, &log, &there)).collect();
    for line in [lines[stop].to_vec()].into_iter().chain(others) {
        let log = if random.one_in(24) { making::log(random) } else { log };
        let device = if random.one_in(32) { records::damaged(random) } else { there };
        all.push(Case::one(device, Act::Play { log, line, lent: random.reply_memory(136) }));
    }
    all.retain(|case| !case.acts.is_empty());
    all
}

/// Where a log stands after that line, if it belongs.
fn past(log: &Log, device: &Device, line: &[u8]) -> (Log, Device) {
    let (_, log, device) = unmistaken(|| play(log, device, line, &mut [0; 136]));
    (log, device)
}
