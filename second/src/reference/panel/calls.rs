//! The calls on a panel: "every call gives 1 for one that is not" legal; a refused call gives the panel that it was
//! given, and writes no byte.

use super::known::Known;
use super::{Entry, MOST_PROJECTORS, NOT_READY, Panel};
use crate::face::{self, Heard, PanelChanged, PanelSent, Reading};
use crate::reference::calls::{self, NOT_LEGAL, OUT_OF_RANGE, ROOM_SHORT, WRITER_ROOM};
use crate::reference::controller::{self, Command, Greeting};
use crate::reference::replies::{OTHER_COMMAND, PARAMETER_NOT_ALLOWED};
use crate::reference::rules::{Mistake, made};
use crate::reference::set_up::{is_password, is_short};

pub fn none() -> PanelChanged {
    PanelChanged { number: 0, panel: face::Panel::NONE }
}

/// The panel after a change, with what the change gives; or the number of the first check that fails, with the panel
/// as it was.
fn after<T>(record: &face::Panel, change: impl FnOnce(&mut Panel) -> Result<T, u32>) -> (Result<T, u32>, face::Panel) {
    let refused = || if made(Mistake::RefusalGivesNone) { face::Panel::NONE } else { *record };
    let Some(mut panel) = Panel::read(record) else { return (Err(NOT_LEGAL), refused()) };
    match change(&mut panel) {
        Ok(given) => (Ok(given), panel.record()),
        Err(number) => (Err(number), refused()),
    }
}

fn changed(record: &face::Panel, change: impl FnOnce(&mut Panel) -> Result<(), u32>) -> PanelChanged {
    let (given, panel) = after(record, change);
    PanelChanged { number: given.err().unwrap_or(0), panel }
}

/// "no such projector is 3."
fn named(panel: &mut Panel, projector: usize) -> Result<&mut Entry, u32> {
    let projector = if made(Mistake::NumberCutTo32Bits) { projector as u32 as usize } else { projector };
    panel.0.get_mut(projector).ok_or(OUT_OF_RANGE)
}

/// "3 a password out of range, or a ninth projector". "Passwords are those that the writer takes, 0 to 32 letters and
/// digits."
pub fn add(record: &face::Panel, password: &[u8]) -> PanelChanged {
    changed(record, |panel| {
        let most = if made(Mistake::SevenProjectors) { 7 } else { MOST_PROJECTORS };
        let short = made(Mistake::PanelRefusesShort) && is_short(password);
        if panel.0.len() >= most || short || !is_password(password) {
            return Err(OUT_OF_RANGE);
        }
        panel.0.push(Entry::added(password));
        Ok(())
    })
}

/// "1, 2, 3, 9: number, length, panel".
pub fn command(record: &face::Panel, projector: usize, command: face::Command, out: &mut [u8]) -> PanelSent {
    let short = out.len() < WRITER_ROOM;
    let (given, panel) = after(record, |panel| {
        if short && !made(Mistake::PanelRoomLast) {
            return Err(ROOM_SHORT);
        }
        let entry = named(panel, projector)?;
        if made(Mistake::NotReadyBeforeNoCommand) && entry.greeted.is_none_or(|greeted| greeted.under_way.is_some()) {
            return Err(NOT_READY);
        }
        Command::read(command).ok_or(OUT_OF_RANGE)?;
        let line = entry.command(command)?;
        if short { Err(ROOM_SHORT) } else { Ok(line) }
    });
    match given {
        Ok(line) => {
            out[..line.len()].copy_from_slice(&line);
            PanelSent { number: 0, length: line.len(), panel }
        }
        Err(_) if short && made(Mistake::PanelRoomFirst) => PanelSent { number: ROOM_SHORT, length: 0, panel },
        Err(number) => PanelSent { number, length: 0, panel },
    }
}

/// "The step touches only the named projector's entry."
pub fn line(record: &face::Panel, projector: usize, line: &[u8]) -> PanelChanged {
    let mut given = changed(record, |panel| {
        let entry = named(panel, projector)?;
        let before = entry.greeted;
        entry.step(line);
        if made(Mistake::ErraForgetsAll) && before.is_some() && entry.greeted.is_none() {
            panel.0.iter_mut().for_each(|entry| entry.known = Known::default());
        }
        Ok(())
    });
    if made(Mistake::EarlierHoursLeft) && given.number == 0 {
        leave_earlier_hours(&record.entries[projector], &mut given.panel.entries[projector]);
    }
    given
}

/// "It tells what the line was, which is kept nowhere: its greeting, an accepted reply, ERRA, late, foreign or malformed;
/// and, where a command is under way, what the reader takes from the line. A refused call tells nothing." The number is
/// that of the step.
pub fn heard(record: &face::Panel, projector: usize, line: &[u8], number: u32) -> Heard {
    let nothing = Reading { number: 0, ..calls::read_reply(face::Command { code: 255, first: 0, second: 0 }, b"") };
    let told = |kind, reading| Heard { number, kind, reading };
    if number != 0 {
        return told(if made(Mistake::RefusedLineTold) { MALFORMED } else { 0 }, nothing);
    }
    let entry = &record.entries[projector];
    if entry.greeting == 0 {
        return match controller::greeting(line) {
            Some(Greeting::Plain | Greeting::Secured(_)) => told(1, nothing),
            Some(Greeting::Erra) if made(Mistake::EarlyErraTold) => told(3, nothing),
            _ => told(MALFORMED, nothing),
        };
    }
    if !entry.under_way.is_raised() {
        return told(LATE, nothing);
    }
    let reading = calls::read_reply(entry.command, line);
    let kind = match reading {
        Reading { number: 0, kind: ERRA, .. } if made(Mistake::ErraToldMalformed) => MALFORMED,
        Reading { number: 0, kind: ERRA, .. } => 3,
        Reading { number: 0, .. } => 2,
        Reading { number: OTHER_COMMAND, .. } if made(Mistake::ForeignToldMalformed) => MALFORMED,
        Reading { number: OTHER_COMMAND, .. } => 5,
        Reading { number: PARAMETER_NOT_ALLOWED, .. } if made(Mistake::NotAllowedToldForeign) => 5,
        _ => MALFORMED,
    };
    match kind {
        2 if made(Mistake::ReplyUnread) => told(kind, nothing),
        5 | MALFORMED if made(Mistake::StrayNumberLeftOut) => told(kind, nothing),
        _ => told(kind, reading),
    }
}

/// The kinds of `enum pj_heard_kind` that are named above more than once, and ERRA of `enum pj_reading_kind`.
const LATE: u8 = 4;
const MALFORMED: u8 = 6;
const ERRA: u8 = 11;

/// No rule leaves these; a mistake does.
fn leave_earlier_hours(before: &face::Entry, after: &mut face::Entry) {
    if after.lamps_known.is_raised() {
        for place in after.lamp_count..before.lamp_count {
            after.hours[place] = before.hours[place];
        }
    }
}

/// "the connection is gone: as ERRA, but readings stay. 1, 3".
pub fn lost(record: &face::Panel, projector: usize) -> PanelChanged {
    changed(record, |panel| {
        named(panel, projector)?.lost();
        Ok(())
    })
}
