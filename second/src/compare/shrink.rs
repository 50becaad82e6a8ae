//! From a case on which the two programs differ to the smallest that still shows it.

use super::{Case, class_2_shrink, days, panel_shrink, recorded, tables};
use crate::face::wire::Wire;
use crate::face::{Act, Command, Connection, Device, Flag, Lent, Name, PLACES};
use crate::reference::form::{self, Stored};
use crate::reference::rules::unmistaken;

/// What can be cut down.
pub trait Smaller: Sized {
    /// Smaller ones, the most promising first.
    fn smaller(&self) -> impl Iterator<Item = Self>;
}

/// Takes the first smaller case that still differs, until none does or so many were tried.
pub fn smallest<T: Smaller>(mut case: T, tries: usize, mut differs: impl FnMut(&T) -> bool) -> T {
    let mut tries = 0..tries;
    loop {
        let next = case.smaller().take_while(|_| tries.next().is_some()).find(&mut differs);
        match next {
            Some(smaller) => case = smaller,
            None => return case,
        }
    }
}

impl Smaller for Case {
    /// Fewer calls first, then a simpler record to start from, then simpler calls.
    fn smaller(&self) -> impl Iterator<Item = Case> {
        let fewer = shorter(&self.acts).filter(|acts| !acts.is_empty()).map(|acts| Case::of(self.start.clone(), acts));
        let plainer = class_2_shrink::plainer_records(&self.start).into_iter();
        let zeroed = zeroed(&*self.start, &[4360, 360, 72, 36, 8, 4, 1]);
        let records = plainer.chain(zeroed).chain(plainer_records(&self.start));
        let simpler_acts = (0..self.acts.len()).flat_map(move |place| {
            simpler(&self.acts[place]).into_iter().map(move |act| {
                let mut acts = self.acts.clone();
                acts[place] = act;
                Case::of(self.start.clone(), acts)
            })
        });
        fewer.chain(records.map(|start| Case::of(start, self.acts.clone()))).chain(simpler_acts)
    }
}

/// A list with a stretch left out: all of it, halves, single places last.
pub fn shorter<T: Clone>(list: &[T]) -> impl Iterator<Item = Vec<T>> {
    halves(list.len()).map(|(first, end)| [&list[..first], &list[end..]].concat())
}

/// The stretches of a list to leave out: first and end of each.
pub fn halves(length: usize) -> impl Iterator<Item = (usize, usize)> {
    stretches(length, (0..8).map(|times| length >> times).chain([1]).collect())
}

/// Every stretch of each size, at multiples of the size.
fn stretches(length: usize, mut sizes: Vec<usize>) -> impl Iterator<Item = (usize, usize)> {
    sizes.dedup();
    let sizes = sizes.into_iter().filter(|&size| size > 0);
    sizes.flat_map(move |size| (0..length).step_by(size).map(move |first| (first, (first + size).min(length))))
}

/// The record with a stretch of its fields set to zero: all of it, then of these sizes. Of a device they are the texts,
/// all names, one text, part of one, a count, a number, a byte.
pub fn zeroed<T: Wire>(record: &T, sizes: &[usize]) -> impl Iterator<Item = T> {
    let mut bytes = Vec::new();
    record.put(&mut bytes);
    let length = bytes.len();
    stretches(length, [&[length], sizes].concat()).filter_map(move |(first, end)| {
        let used = bytes[first..end].iter().any(|&byte| byte != 0);
        used.then(|| {
            let mut fewer = bytes.clone();
            fewer[first..end].fill(0);
            T::get(&mut fewer.as_slice())
        })
    })
}

/// The record with one input, one lamp fewer, a place closed or between lines, or a lower number.
fn plainer_records(device: &Device) -> impl Iterator<Item = Device> {
    let mut all = Vec::new();
    let mut change = |change: &dyn Fn(&mut Device)| {
        let mut plainer = *device;
        change(&mut plainer);
        if plainer != *device {
            all.push(plainer);
        }
    };
    for inputs in [&b"11"[..], b"1112"] {
        let longer = device.settings.input_count > inputs.len() / 2;
        if longer || (device.settings.input_count > 0 && device.settings.inputs[..2] != *b"11") {
            change(&|d| {
                d.settings.input_count = inputs.len() / 2;
                d.settings.inputs = [0; 64];
                d.settings.inputs[..inputs.len()].copy_from_slice(inputs);
                d.settings.names[inputs.len() / 2..].fill(Name::EMPTY);
                d.own.chosen = d.own.chosen.min(inputs.len() / 2 - 1);
            });
        }
    }
    change(&|d| {
        let fewer = d.settings.lamp_count.saturating_sub(1).min(7);
        d.settings.lamp_count = fewer;
        d.own.lamps[fewer] = 0;
        d.own.enabled[fewer] = Flag::NO;
    });
    change(&|d| (0..8).for_each(|lamp| d.own.enabled[lamp] = Flag::from(lamp < d.settings.lamp_count)));
    if device.own.lamps[0] == 0 {
        change(&|d| d.own.lamps.rotate_left(1));
        change(&|d| {
            d.own.lamps.rotate_left(1);
            d.own.enabled.rotate_left(1);
        });
    }
    for place in 0..8 {
        lower(device.own.lamps[place]).for_each(|seconds| change(&|d| d.own.lamps[place] = seconds));
    }
    for lower in lower(device.settings.warm) {
        change(&|d| (d.settings.warm, d.own.left) = (lower, d.own.left.min(lower)));
    }
    for lower in lower(device.settings.cool) {
        change(&|d| (d.settings.cool, d.own.left) = (lower, d.own.left.min(lower)));
    }
    for place in 0..PLACES {
        change(&|d| d.connections[place] = Connection::CLOSED);
        change(&|d| d.connections[place].line = Connection::CLOSED.line);
    }
    lower(device.own.left).for_each(|left| change(&|d| d.own.left = left));
    all.into_iter()
}

/// The call with shorter slices and smaller numbers.
pub fn simpler(act: &Act) -> Vec<Act> {
    match act {
        Act::SetUp(lent) => simpler_set_ups(lent).into_iter().map(Act::SetUp).collect(),
        Act::SetUp2(lent) => {
            let simpler = class_2_shrink::simpler_set_ups(lent).into_iter();
            simpler.map(|lent| Act::SetUp2(Box::new(lent))).collect()
        }
        Act::WhichSetting(lent) => simpler_set_ups(lent).into_iter().map(Act::WhichSetting).collect(),
        Act::WhichSetting2(lent) => {
            let simpler = class_2_shrink::simpler_set_ups(lent).into_iter();
            simpler.map(|lent| Act::WhichSetting2(Box::new(lent))).collect()
        }
        Act::Open { random, lent } => {
            let numbers = lower(*random).map(|random| Act::Open { random, lent: lent.clone() });
            numbers.chain(memories(lent).map(|lent| Act::Open { random: *random, lent })).collect()
        }
        Act::Close { place } => lower_places(*place).map(|place| Act::Close { place }).collect(),
        Act::Receive { place, bytes, lent } => {
            let receive =
                |place, bytes: &[u8], lent: &[u8]| Act::Receive { place, bytes: bytes.to_vec(), lent: lent.to_vec() };
            let lower = lower_places(*place).map(|place| receive(place, bytes, lent));
            let simpler = simpler_bytes(bytes).map(|bytes| receive(*place, &bytes, lent));
            let memories = memories(lent).map(|lent| receive(*place, bytes, &lent));
            lower.chain(simpler).chain(memories).collect()
        }
        Act::HandOn { place, bytes, cuts } => {
            let simpler = simpler_bytes(bytes).map(|bytes| (*place, bytes, cuts.clone()));
            let fewer = shorter(cuts).map(|cuts| (*place, bytes.clone(), cuts));
            let all =
                simpler.chain(fewer).chain(lower_places(*place).map(|place| (place, bytes.clone(), cuts.clone())));
            all.map(|(place, bytes, cuts)| Act::HandOn { place, bytes, cuts }).collect()
        }
        Act::Interleave { parts } => {
            let simpler_parts = (0..parts.len()).flat_map(|at| {
                simpler_bytes(&parts[at].1).map(move |bytes| {
                    let mut simpler = parts.clone();
                    simpler[at].1 = bytes;
                    simpler
                })
            });
            shorter(parts).chain(simpler_parts).map(|parts| Act::Interleave { parts }).collect()
        }
        Act::Pass { seconds } => lower(*seconds).map(|seconds| Act::Pass { seconds }).collect(),
        Act::PassInPlace { seconds } => {
            let by_value = Act::Pass { seconds: *seconds };
            [by_value].into_iter().chain(lower(*seconds).map(|seconds| Act::PassInPlace { seconds })).collect()
        }
        Act::SetMark { lamp, enabled } => {
            lower_places(*lamp).map(|lamp| Act::SetMark { lamp, enabled: *enabled }).collect()
        }
        Act::SetErrors { digits } => simpler_bytes(digits).map(|digits| Act::SetErrors { digits }).collect(),
        Act::Store { lent } => memories(lent).map(|lent| Act::Store { lent }).collect(),
        Act::Load { bytes } => simpler_forms(bytes).into_iter().map(|bytes| Act::Load { bytes }).collect(),
        Act::Digest { message } => simpler_bytes(message).map(|message| Act::Digest { message }).collect(),
        Act::Write { command, secured, random, password, lent } => {
            let write = |command, random, password: &[u8], lent: &[u8]| Act::Write {
                command,
                secured: *secured,
                random,
                password: password.to_vec(),
                lent: lent.to_vec(),
            };
            let commands = simpler_commands(*command).map(|command| write(command, *random, password, lent));
            let numbers = lower(*random).map(|random| write(*command, random, password, lent));
            let passwords = simpler_bytes(password).map(|password| write(*command, *random, &password, lent));
            let memories = memories(lent).map(|lent| write(*command, *random, password, &lent));
            commands.chain(numbers).chain(passwords).chain(memories).collect()
        }
        Act::ReadGreeting { line } => simpler_bytes(line).map(|line| Act::ReadGreeting { line }).collect(),
        Act::ReadReply { command, line } => {
            let commands = simpler_commands(*command).map(|command| Act::ReadReply { command, line: line.clone() });
            commands.chain(simpler_bytes(line).map(|line| Act::ReadReply { command: *command, line })).collect()
        }
        Act::Panel(call) => panel_shrink::simpler(call).into_iter().map(|call| Act::Panel(Box::new(call))).collect(),
        Act::CompareLamps { earlier, later, lent } => tables::simpler(earlier, later, lent),
        Act::CheckDay { day, rigs } => {
            days::simpler(day, rigs).into_iter().map(|(day, rigs)| Act::CheckDay { day, rigs }).collect()
        }
        Act::PlanDay { day, lent } => {
            days::simpler(day, lent).into_iter().map(|(day, lent)| Act::PlanDay { day, lent }).collect()
        }
        Act::LogBegun { form } => simpler_bytes(form).map(|form| Act::LogBegun { form }).collect(),
        Act::Record { .. } | Act::Play { .. } | Act::Keep { .. } => recorded::simpler(act),
        Act::SetFault { .. } | Act::Legal => Vec::new(),
    }
}

/// Place 0, the place before, 4 for those that there are not.
pub fn lower_places(place: usize) -> impl Iterator<Item = usize> {
    [0, PLACES, place.wrapping_sub(1)].into_iter().filter(move |&lower| lower < place)
}

pub fn simpler_set_ups(lent: &Lent) -> Vec<Lent> {
    let mut all = Vec::new();
    macro_rules! shorten {
        ($($field:ident)*) => { $(
            all.extend(shorter(&lent.$field).map(|shorter| Lent { $field: shorter, ..lent.clone() }));
        )* };
    }
    if lent.inputs.len() >= 2 && lent.inputs != b"11" {
        all.push(Lent { inputs: b"11".to_vec(), ..lent.clone() });
    }
    shorten!(name maker model other password inputs lamps);
    all.extend(lower_at(&lent.lamps).map(|lamps| Lent { lamps, ..lent.clone() }));
    all.extend(lower(lent.warm).map(|warm| Lent { warm, ..lent.clone() }));
    all.extend(lower(lent.cool).map(|cool| Lent { cool, ..lent.clone() }));
    all
}

/// The form of simpler settings, with what is left over after it, or shorter bytes; of what is no form, simpler bytes.
pub fn simpler_forms(bytes: &[u8]) -> Vec<Vec<u8>> {
    let Ok((stored, left_over)) = unmistaken(|| form::read(bytes)) else { return simpler_bytes(bytes).collect() };
    let of = |stored: &Stored| [&unmistaken(|| form::written(stored))[..], left_over].concat();
    let with_lent = |lent| Stored { lent, ..stored.clone() };
    let mut simpler: Vec<Stored> = class_2_shrink::simpler_classes(&stored);
    for lent in simpler_set_ups(&stored.lent) {
        let lamps = lent.lamps.len();
        simpler.push(with_lent(lent.clone()));
        if let Some(marks) = stored.marks.as_ref().filter(|marks| marks.len() > lamps) {
            simpler.push(Stored { marks: Some(marks[..lamps].to_vec()), ..with_lent(lent) });
        }
    }
    let marks = stored.marks.iter().flat_map(|marks| shorter(marks));
    simpler.extend(marks.map(|marks| Stored { marks: Some(marks), ..stored.clone() }));
    simpler.iter().map(of).chain(shorter(bytes)).collect()
}

pub fn simpler_commands(command: Command) -> impl Iterator<Item = Command> {
    let plainer = [Command { first: 0, ..command }, Command { second: 0, ..command }, Command { code: 0, ..command }];
    plainer.into_iter().filter(move |&plainer| plainer != command)
}

/// Shorter ones, then ones with a stretch of plain bytes, then upper case.
pub fn simpler_bytes(bytes: &[u8]) -> impl Iterator<Item = Vec<u8>> {
    let plainer = halves(bytes.len()).map(|(first, end)| {
        let mut plainer = bytes.to_vec();
        plainer[first..end].fill(b'0');
        plainer
    });
    let changed = plainer.chain([bytes.to_ascii_uppercase()]).filter(move |changed| changed != bytes);
    shorter(bytes).chain(changed)
}

/// Memory of zeros, as long as before or just long enough.
pub fn memories(lent: &[u8]) -> impl Iterator<Item = Vec<u8>> {
    let lengths = [0, 136, 168, lent.len()].into_iter().filter(|&length| length <= lent.len());
    lengths.map(|length| vec![0; length]).filter(move |simpler| simpler != lent)
}

/// A list with one number lower.
pub fn lower_at(numbers: &[u32]) -> impl Iterator<Item = Vec<u32>> {
    (0..numbers.len()).flat_map(move |place| {
        lower(numbers[place]).map(move |lower| {
            let mut all = numbers.to_vec();
            all[place] = lower;
            all
        })
    })
}

/// 0, 1, then nearer and nearer.
pub fn lower(number: u32) -> impl Iterator<Item = u32> {
    let steps = [number, number.wrapping_sub(1)].into_iter().chain((1..32).map(move |times| number >> times));
    steps.filter(move |&step| 0 < step && step <= number).map(move |step| number - step)
}
