//! The calls of a host on a recorded log (include/ceiling.h). "With any of these record, *log and reply memory stay as they
//! were": what a refused call leaves is what it was lent.

use super::chain::{make, shown_of};
use super::lines::text;
use super::{Call, Entry, Log, Why};
use crate::face::{Device, Said, Written};
use crate::reference::Projector;
use crate::reference::calls::{NOT_LEGAL, OUT_OF_RANGE, PROJECTOR_ROOM, ROOM_SHORT};
use crate::reference::rules::{Mistake, made};
use crate::reference::text::LF;

/// "the least memory for a line of a recorded log".
pub const LINE_ROOM: usize = 4097;

/// "what is kept before the first file of a log, of the stored form to which it belongs".
pub fn begun(form: &[u8]) -> Log {
    Log::begun(form)
}

/// 1 for a stated line alone; 2, 3.
pub fn record(log: &Log, device: &Device, said: &Said, out: &mut [u8]) -> (Written, Log) {
    let refused = |number| {
        let counted = made(Mistake::RefusedIsCounted) && number == OUT_OF_RANGE;
        (Written { number, length: 0 }, Log { lines: log.lines.saturating_add(counted.into()), ..*log })
    };
    let projector = match said {
        Said::Stated => Projector::read(device),
        _ => None,
    };
    let entry = entry(log, projector.as_ref(), said);
    let line = entry.as_ref().and_then(|entry| Some((text(entry)?, entry)));
    let line = line.and_then(|(line, entry)| log.past(entry, &line).map(|past| (line, past)));
    let is_begun = log.file > 0 || matches!(said, Said::File { .. }) || made(Mistake::HeaderMayBeMissing);
    let line = line.filter(|_| is_begun);
    let room = match &line {
        Some((line, _)) if made(Mistake::RoomForTheLine) => line.len() + 1,
        None if made(Mistake::RangeBeforeRoom) => 0,
        _ => LINE_ROOM,
    };
    if *said == Said::Stated && projector.is_none() && !(made(Mistake::StatedRoomFirst) && out.len() < room) {
        return refused(NOT_LEGAL);
    }
    if out.len() < room {
        return refused(ROOM_SHORT);
    }
    let Some((mut line, past)) = line else { return refused(OUT_OF_RANGE) };
    line.push(LF);
    out[..line.len()].copy_from_slice(&line);
    (Written { number: 0, length: line.len() }, past)
}

/// What is to be written where the log stands; none where no line can say it, and for a record that is not legal.
fn entry(log: &Log, projector: Option<&Projector>, said: &Said) -> Option<Entry> {
    Some(Entry::Call(match said {
        Said::File { time } => {
            let file = match log.file.checked_add(1) {
                _ if made(Mistake::FilesFrom0) => log.file,
                None if made(Mistake::FilesStay) => log.file,
                next => next?,
            };
            return Some(Entry::Header { file, sum: log.sum, time: time.clone() });
        }
        Said::Stated => {
            return Some(Entry::Stated { lines: log.lines, sum: log.sum, shown: shown_of(projector?) });
        }
        Said::Opened { place, random } => Call::Opened { place: *place, random: *random },
        Said::Received { place, bytes } => Call::Received { place: *place, bytes: bytes.clone() },
        Said::Passed { seconds } => Call::Passed(*seconds),
        Said::Closed { place } => Call::Closed { place: *place },
        Said::Fault { mark } => Call::Fault(*mark),
        Said::Errors { digits } => Call::Errors(digits.as_slice().try_into().ok()?),
        Said::Mark { lamp, enabled } => Call::Mark { lamp: *lamp, enabled: *enabled },
    }))
}

/// 1, 2, 3, as the call that the line says, 3 for another place.
pub fn play(log: &Log, device: &Device, line: &[u8], out: &mut [u8]) -> (Written, Log, Device) {
    let refused = |number| (Written { number, length: 0 }, *log, *device);
    let Some(mut projector) = Projector::read(device) else {
        let line_first = made(Mistake::LineBeforeLegality) && super::lines::entry(line).is_none();
        return refused(if line_first { OUT_OF_RANGE } else { NOT_LEGAL });
    };
    let fits = log.fits(&projector, line);
    if out.len() < PROJECTOR_ROOM && !(made(Mistake::LineBeforeRoom) && fits.is_err()) {
        return refused(ROOM_SHORT);
    }
    let Ok(entry) = fits else { return refused(OUT_OF_RANGE) };
    let made_again = match &entry {
        Entry::Call(call) => make(&mut projector, call),
        Entry::Header { .. } | Entry::Stated { .. } => Ok(Vec::new()),
    };
    let reply = match made_again {
        Ok(reply) => reply,
        Err(Why::Refused(_)) if made(Mistake::RefusedPassedOver) => Vec::new(),
        Err(Why::Refused(number)) => return refused(number),
        Err(_) => return (Written { number: OUT_OF_RANGE, length: 0 }, *log, projector.record()),
    };
    if !made(Mistake::ReplyNotPlayed) {
        out[..reply.len()].copy_from_slice(&reply);
    }
    let past = log.past(&entry, line).expect("it fits");
    let past = if made(Mistake::PlayedNotCounted) { *log } else { past };
    (Written { number: 0, length: reply.len() }, past, projector.record())
}
