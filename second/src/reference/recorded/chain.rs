//! Where a line belongs: "the header of file 1 has the sum of the form; a log of another form, a gap in a chain and a file of
//! another chain are noticed there". And the call that it says, made again: "The history does not belong to that record if a
//! call is refused, if an opening gets another place than its line says, or if a line says nothing."

use super::crc::{crc32, crc32_on};
use super::lines::entry;
use super::{Call, Entry, Log, Why};
use crate::reference::Projector;
use crate::reference::calls::{IS_CLOSED, NO_PLACE};
use crate::reference::rules::{Mistake, made};
use crate::reference::text::LF;

impl Log {
    /// Before the first file: "a history belongs to the stored form of that record", whose sum this is.
    pub fn begun(form: &[u8]) -> Log {
        Log { file: 0, lines: 0, sum: crc32(form) }
    }

    /// What a line says, which is lent without its LF, where it belongs here.
    pub fn fits(&self, projector: &Projector, line: &[u8]) -> Result<Entry, Why> {
        let entry = entry(line).ok_or(Why::SaysNothing)?;
        let unless = |fits: bool, why| if fits { Ok(()) } else { Err(why) };
        match &entry {
            Entry::Header { file, sum, .. } => {
                unless(self.file.checked_add(1) == Some(*file) || made(Mistake::GapPassedOver), Why::OtherFile)?;
                unless(self.sum == *sum || made(Mistake::HeaderNotCompared), Why::OtherSum)?;
            }
            _ if self.file == 0 && !made(Mistake::HeaderMayBeMissing) => return Err(Why::OtherFile),
            Entry::Stated { .. } if made(Mistake::StatedNotCompared) => (),
            Entry::Stated { lines, sum, shown } => {
                unless(self.lines == *lines || made(Mistake::CountNotCompared), Why::OtherCount)?;
                unless(self.sum == *sum || made(Mistake::SumNotCompared), Why::OtherSum)?;
                unless(shown_of(projector) == *shown || made(Mistake::StateNotCompared), Why::OtherState)?;
            }
            Entry::Call(_) => (),
        }
        match self.past(&entry, line) {
            Some(_) => Ok(entry),
            None => Err(Why::OtherCount),
        }
    }

    /// Past that entry and its line, LF included; none where the count of files or lines is at its end.
    pub fn past(&self, entry: &Entry, line: &[u8]) -> Option<Log> {
        let is_header = matches!(entry, Entry::Header { .. });
        let before = match () {
            _ if made(Mistake::SumOfTheFile) && is_header => 0,
            _ if made(Mistake::SumOfTheLine) => 0,
            _ => self.sum,
        };
        let sum = crc32_on(before, line);
        let sum = if made(Mistake::SumWithoutLineEnds) { sum } else { crc32_on(sum, &[LF]) };
        if is_header {
            let lines = if made(Mistake::CountGoesOn) { self.lines } else { u32::from(made(Mistake::HeaderCounted)) };
            let file = match self.file.checked_add(1) {
                None if made(Mistake::FilesStay) => self.file,
                next => next?,
            };
            return Some(Log { file, lines, sum });
        }
        let is_counted = !(matches!(entry, Entry::Stated { .. }) && made(Mistake::StatedNotCounted));
        let lines = match self.lines.checked_add(1) {
            _ if !is_counted => self.lines,
            None if made(Mistake::LinesWrap) => 0,
            next => next?,
        };
        Some(Log { lines, sum, ..*self })
    }
}

/// "what `replay` prints last of the record": "`power `, the power as POWR answers it, ` lamps`, for each lamp a space and
/// its seconds".
pub fn shown_of(projector: &Projector) -> Vec<u8> {
    let lamps: String = projector.lamps.iter().map(|seconds| format!(" {seconds}")).collect();
    format!("power {} lamps{lamps}", char::from(projector.power_digit())).into_bytes()
}

/// Makes the call again: its reply, perhaps none. Where it does not belong, the projector is as it was.
pub fn make(projector: &mut Projector, call: &Call) -> Result<Vec<u8>, Why> {
    let is_closed = |projector: &Projector, place: usize| match projector.is_closed(place) {
        true => Err(Why::Refused(IS_CLOSED)),
        false => Ok(()),
    };
    match call {
        Call::Opened { place, random } => match projector.place_to_open() {
            None => return Err(Why::Refused(NO_PLACE)),
            Some(got) if got == *place || made(Mistake::OtherPlaceTaken) => return Ok(projector.open(got, *random)),
            Some(got) => {
                if made(Mistake::OtherPlaceOpened) {
                    projector.open(got, *random);
                }
                return Err(Why::OtherPlace);
            }
        },
        Call::Received { place, bytes } => {
            is_closed(projector, *place)?;
            return Ok(projector.receive(*place, bytes).1);
        }
        Call::Passed(seconds) => projector.pass(*seconds),
        Call::Closed { place } => {
            is_closed(projector, *place)?;
            projector.close(*place);
        }
        Call::Fault(_) if made(Mistake::FaultLineIgnored) => (),
        Call::Fault(mark) => projector.fault = *mark,
        Call::Errors(digits) => projector.errors = *digits,
        Call::Mark { lamp, enabled } => projector.set_mark(*lamp, *enabled).map_err(Why::Refused)?,
    }
    Ok(Vec::new())
}
