//! Simpler calls on a recorded log.

use crate::compare::shrink::{lower, lower_places, memories, shorter, simpler as simpler_act, simpler_bytes};
use crate::face::{Act, Log, Part, Said};

/// With less in its lists, lower numbers, plainer memory.
pub fn simpler(act: &Act) -> Vec<Act> {
    match act {
        Act::Record { log, said, lent } => {
            let record =
                |log: Log, said: &Said, lent: &[u8]| Act::Record { log, said: said.clone(), lent: lent.to_vec() };
            let logs = simpler_logs(*log).into_iter().map(|log| record(log, said, lent));
            let saids = simpler_saids(said).into_iter().map(|said| record(*log, &said, lent));
            let zeros = [vec![0; lent.len()]].into_iter().filter(|zeros| zeros != lent);
            logs.chain(saids).chain(zeros.map(|zeros| record(*log, said, &zeros))).collect()
        }
        Act::Play { log, line, lent } => {
            let play = |log: Log, line: &[u8], lent: &[u8]| Act::Play { log, line: line.to_vec(), lent: lent.to_vec() };
            let logs = simpler_logs(*log).into_iter().map(|log| play(log, line, lent));
            let lines = simpler_bytes(line).map(|line| play(*log, &line, lent));
            logs.chain(lines).chain(memories(lent).map(|lent| play(*log, line, &lent))).collect()
        }
        Act::Keep { form, parts } => {
            let keep = |parts: Vec<Part>| Act::Keep { form: form.clone(), parts };
            let fewer = shorter(parts).map(keep);
            let calls = (0..parts.len()).flat_map(|place| {
                let acts = if let Part::Call(act) = &parts[place] { simpler_act(act) } else { Vec::new() };
                acts.into_iter().map(move |act| {
                    let mut parts = parts.clone();
                    parts[place] = Part::Call(act);
                    keep(parts)
                })
            });
            let without = form.iter().map(|_| Act::Keep { form: None, parts: parts.clone() });
            fewer.chain(without).chain(calls).collect()
        }
        _ => Vec::new(),
    }
}

fn simpler_logs(log: Log) -> Vec<Log> {
    let files = lower(log.file).map(|file| Log { file, ..log });
    let lines = lower(log.lines).map(|lines| Log { lines, ..log });
    let sums = (log.sum > 0).then_some(Log { sum: 0, ..log });
    files.chain(lines).chain(sums).collect()
}

fn simpler_saids(said: &Said) -> Vec<Said> {
    match said {
        Said::File { time } => simpler_bytes(time).map(|time| Said::File { time }).collect(),
        Said::Opened { place, random } => {
            let places = lower_places(*place).map(|place| Said::Opened { place, random: *random });
            places.chain(lower(*random).map(|random| Said::Opened { place: *place, random })).collect()
        }
        Said::Received { place, bytes } => {
            let places = lower_places(*place).map(|place| Said::Received { place, bytes: bytes.clone() });
            places.chain(simpler_bytes(bytes).map(|bytes| Said::Received { place: *place, bytes })).collect()
        }
        Said::Passed { seconds } => lower(*seconds).map(|seconds| Said::Passed { seconds }).collect(),
        Said::Closed { place } => lower_places(*place).map(|place| Said::Closed { place }).collect(),
        Said::Errors { digits } => simpler_bytes(digits).map(|digits| Said::Errors { digits }).collect(),
        Said::Mark { lamp, enabled } => {
            lower_places(*lamp).map(|lamp| Said::Mark { lamp, enabled: *enabled }).collect()
        }
        Said::Fault { .. } | Said::Stated => Vec::new(),
    }
}
