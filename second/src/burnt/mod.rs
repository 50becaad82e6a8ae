//! `burnt`: which lamp burnt when. It reads a log as `replay` does, "and one form more, of its own", and prints each
//! lamp's stretches and what they come to. `watch` follows the lamps; `mistakes` has the deliberate ones.

pub mod mistakes;
mod watch;

use crate::reference::recorded::{Call, Why, chain};
use crate::reference::{Power, Projector};
use crate::replay::history::{self, History};
use crate::replay::unplayed::{self, Note, Says};
use crate::replay::{self, Due, Outcome, device, each_line, event, kind, lines, refuse, stray_words, text_of};
use std::io::{self, BufRead, Write};
use watch::{Lamp, Watch};
pub use watch::{Stretch, Sum};

/// What the program asks at each step, so that a mistake can answer one of them in another way.
#[derive(Clone, Copy)]
pub struct Steps {
    /// The device that the log is played on.
    device: fn(Option<&[u8]>) -> Result<Projector, u32>,
    /// The lamp, from 0, and the mark that a line gives it.
    mark: fn(&[u8]) -> Option<(usize, bool)>,
    set_mark: fn(&mut Projector, usize, bool) -> Result<(), u32>,
    /// Whether a lamp with this mark burns in this power.
    burns: fn(Power, bool) -> bool,
    /// How a history is played, its calls are made, and how many seconds its `T` lines pass.
    history: history::Steps,
    make: fn(&mut Projector, &Call) -> Result<Vec<u8>, Why>,
    passed: fn(u32) -> u32,
    /// What is told at the log's end of a lamp that burns there or not, in this second.
    last: fn(&Lamp, bool, u128) -> Option<Stretch>,
}

pub const RIGHT: Steps = Steps {
    device,
    mark,
    set_mark: Projector::set_mark,
    burns,
    history: history::RIGHT,
    make: chain::make,
    passed: |seconds| seconds,
    last: |lamp, _, _| lamp.stretch,
};

/// "`M`, a space, a lamp's number from 1, a space, 0 or 1, the mark call .." (RULES, Floor log). No device has more
/// than eight lamps, so that a lamp's number is one digit.
pub fn mark(text: &[u8]) -> Option<(usize, bool)> {
    match text {
        [b'M', b' ', lamp @ b'1'..=b'9', b' ', mark @ b'0'..=b'1'] => Some((usize::from(lamp - b'1'), *mark == b'1')),
        _ => None,
    }
}

/// RULES, Lamps: for a lamp count "only the seconds of warm-up or power-on with its own mark set".
fn burns(power: Power, enabled: bool) -> bool {
    enabled && matches!(power, Power::WarmUp(_) | Power::On)
}

pub fn burnt(form: Option<&[u8]>, log: impl BufRead, out: impl Write) -> io::Result<()> {
    burnt_by(&RIGHT, form, log, out)
}

/// "prints for each lamp its stretches .. as soon as a stretch has ended, and at the end for each lamp its seconds at
/// the start, burnt, and now"; "a form that does not load gives its number in one line, and nothing else".
fn burnt_by(steps: &Steps, form: Option<&[u8]>, log: impl BufRead, mut out: impl Write) -> io::Result<()> {
    let followed = match (steps.device)(form) {
        Ok(projector) => follow(Watch::new(steps, projector), form, log, |stretches| tell(stretches, &mut out))?,
        Err(number) => return refuse(number, out),
    };
    for (place, lamp) in followed.watch.sums().enumerate() {
        writeln!(out, "lamp {} start {} burnt {} now {}", place + 1, lamp.start, lamp.burnt, lamp.now)?;
    }
    if let Some(words) = followed.stray {
        writeln!(out, "{words}")?;
    }
    out.flush()
}

/// A log that was read to its end.
struct Followed<'a> {
    watch: Watch<'a>,
    stray: Option<String>,
}

/// Tells each stretch as soon as it has ended, and after the log those of lamps that burn there. Beside the lamps what is
/// printed of a line that does not belong to its history: "stretches and totals of the lines that belong".
fn follow<'a>(
    mut watch: Watch<'a>,
    form: Option<&[u8]>,
    log: impl BufRead,
    mut tell: impl FnMut(&[(usize, Stretch)]) -> io::Result<()>,
) -> io::Result<Followed<'a>> {
    let (is_history, log) = kind(&watch.steps.history, log)?;
    let mut history = History::begun(&watch.steps.history, form);
    each_line(log, |line| {
        let text = text_of(line);
        if is_history {
            history.play(&mut watch, line);
        } else if let Some((lamp, enabled)) = (watch.steps.mark)(text) {
            // "a mark call that is refused, changes nothing"
            let _ = (watch.steps.set_mark)(&mut watch.projector, lamp, enabled);
        } else if let Some(event) = event(text) {
            watch.play(event);
        }
        tell(&watch.ended())
    })?;
    tell(&watch.last())?;
    Ok(Followed { watch, stray: history.words() })
}

/// "`lamp 1 from 0 to 2400`", in the order of the lamps, and at once.
fn tell(stretches: &[(usize, Stretch)], out: &mut impl Write) -> io::Result<()> {
    for (place, stretch) in stretches {
        writeln!(out, "lamp {} from {} to {}", place + 1, stretch.from, stretch.to)?;
    }
    if stretches.is_empty() { Ok(()) } else { out.flush() }
}

/// What a log in memory prints.
pub fn burnt_on(form: Option<&[u8]>, log: &[u8]) -> Vec<u8> {
    in_memory(&RIGHT, form, log)
}

/// What a log comes to.
pub struct Told {
    /// Each with its lamp's place, in the order in which they are told.
    pub stretches: Vec<(usize, Stretch)>,
    /// So many of them had ended before the log did.
    pub ended: usize,
    pub lamps: Vec<Sum>,
    /// The seconds of the log.
    pub seconds: u128,
    /// The projector's name, maker and model.
    pub names: [Vec<u8>; 3],
    /// What is said of a line that does not belong to its history.
    pub stray: Option<String>,
    /// What is said of a log of the first kind that was not all played; nothing of one that was.
    pub unplayed: String,
}

/// What is told of a log in memory, or the number of a form that does not load.
pub fn told(form: Option<&[u8]>, log: &[u8]) -> Result<Told, u32> {
    let mut stretches = Vec::new();
    let watch = follow(Watch::new(&RIGHT, (RIGHT.device)(form)?), form, log, |ended| {
        stretches.extend(ended);
        Ok(())
    });
    let Followed { watch, stray } = watch.expect("memory is read");
    let unplayed = if history::is_history(log) {
        String::new()
    } else {
        unplayed::words(&unplayed::RIGHT, notes((RIGHT.device)(form)?, log))
    };
    let set_up = (RIGHT.device)(form)?.set_up;
    let names = [set_up.name, set_up.maker, set_up.model];
    let ended = stretches.len() - watch.last().len();
    Ok(Told { stretches, ended, lamps: watch.sums().collect(), seconds: watch.second, names, stray, unplayed })
}

/// How `burnt` ends, and what it says.
pub fn due(form: Option<&[u8]>, log: &[u8]) -> Due {
    due_by(&unplayed::RIGHT, form, log)
}

pub fn due_by(says: &Says, form: Option<&[u8]>, log: &[u8]) -> Due {
    let Ok(projector) = device(form) else { return Due::REFUSED };
    if history::is_history(log) {
        return Due::ended(stray_words(told(form, log).expect("the form loads").stray));
    }
    Due::ended(unplayed::words(says, notes(projector, log)))
}

/// The lines of a log of the first kind that are not played.
fn notes(mut projector: Projector, log: &[u8]) -> Vec<Note> {
    let notes = (1..).zip(lines(log).map(text_of)).filter_map(|(number, line)| {
        let came = match mark(line) {
            Some((lamp, enabled)) => Some(projector.set_mark(lamp, enabled).map_err(Some)),
            None => event(line).map(|event| match replay::play(&mut projector, event) {
                Outcome::Refused(number) => Err(Some(number)),
                Outcome::Reply(_) => Ok(()),
            }),
        };
        let refused = came.unwrap_or(Err(None)).err()?;
        Some(Note { number, line: line.to_vec(), refused })
    });
    notes.collect()
}

fn in_memory(steps: &Steps, form: Option<&[u8]>, log: &[u8]) -> Vec<u8> {
    let mut out = Vec::new();
    burnt_by(steps, form, log, &mut out).expect("memory takes what is written");
    out
}

#[cfg(test)]
mod tests;
