//! What a host records: "Of the calls that are made on a record, at all places, each that is served is recorded, in the order
//! made; a refused call is left out." Seconds of several calls "may be added up in one line, which comes before the line of
//! any other call and before a stated line".

use crate::face::{Act, Answer, Said};
use crate::reference::rules::{Mistake, made};

/// "Of an opening its random number and the place that it got are recorded; of a receive the bytes that it took .. and never
/// the memory that a call was lent."
pub fn said_of(act: &Act, answer: &Answer) -> Option<Said> {
    let number = match answer {
        Answer::Changed(changed) => changed.number,
        Answer::Opened(opened, _) => opened.number,
        Answer::Received(received, _) => received.number,
        _ => return None,
    };
    if number != 0 && !made(Mistake::RefusedRecorded) {
        return None;
    }
    match (act, answer) {
        (Act::Open { random, .. }, Answer::Opened(opened, _)) => {
            Some(Said::Opened { place: opened.place, random: *random })
        }
        (Act::Receive { place, bytes, .. }, Answer::Received(received, _)) => {
            let taken = if made(Mistake::UntakenRecorded) { bytes.len() } else { received.taken };
            Some(Said::Received { place: *place, bytes: bytes[..taken].to_vec() })
        }
        (Act::Pass { seconds } | Act::PassInPlace { seconds }, _) => Some(Said::Passed { seconds: *seconds }),
        (Act::Close { place }, _) => Some(Said::Closed { place: *place }),
        (Act::SetFault { mark }, _) => Some(Said::Fault { mark: *mark }),
        (Act::SetErrors { digits }, _) => Some(Said::Errors { digits: digits.clone() }),
        (Act::SetMark { lamp, enabled }, _) => Some(Said::Mark { lamp: *lamp, enabled: *enabled }),
        _ => None,
    }
}

/// The seconds of two calls, one after the other, in one line; none where they are too many.
pub fn added(before: u32, seconds: u32) -> Option<u32> {
    if made(Mistake::SecondsNotAdded) { Some(seconds) } else { before.checked_add(seconds) }
}
