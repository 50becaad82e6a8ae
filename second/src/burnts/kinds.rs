//! What kinds of form, of line and of stretch a log has.

use super::Case;
use crate::burnt::mark;
use crate::logs::recorded;
use crate::reference::{Connection, Power, Projector};
use crate::replay::history::is_history;
use crate::replay::{Event, Outcome, PLACE, device, event, lines, play, text_of};

pub const KINDS: [&str; 22] = [
    "several files",
    "form of version 1",
    "form of version 2",
    "form of version 3",
    "form, ! 20",
    "form, ! 21",
    "form, ! 22",
    "form, ! 23",
    "M, taken",
    "M, ! 3",
    "M, ! 7",
    "M of no form",
    "T 0",
    "T over 31 bits",
    "power on",
    "power off",
    "power stays, ERR3",
    "opened by its digest",
    "refused its digest",
    "ends burning",
    "ends with no second of a stretch",
    "a lamp at its limit",
];

const VERSIONS: [&str; 3] = ["form of version 1", "form of version 2", "form of version 3"];

pub fn kinds(case: &Case, out: &[u8]) -> Vec<&'static str> {
    let mut projector = match device(case.form()) {
        Ok(projector) => projector,
        Err(number) => return vec![["form, ! 20", "form, ! 21", "form, ! 22", "form, ! 23"][number as usize - 20]],
    };
    let version = case.form().map(|form| VERSIONS[usize::from(form[0]) - 1]);
    let mut all: Vec<&str> = version.into_iter().collect();
    if !case.files.is_empty() {
        all.push("several files");
    }
    if is_history(&case.fed.log) {
        all.push(recorded::kind(out));
        return all;
    }
    all.extend(lines(&case.fed.log).filter_map(|line| kind(&mut projector, text_of(line))));
    match projector.power {
        Power::WarmUp(left) if left == projector.set_up.warm => all.push("ends with no second of a stretch"),
        Power::WarmUp(_) | Power::On => all.push("ends burning"),
        Power::Cooling(_) | Power::Off => (),
    }
    let sums = lines(out).filter_map(|line| sum(str::from_utf8(line).ok()?));
    all.extend(sums.filter(|[start, burnt, now]| start + burnt > *now).map(|_| "a lamp at its limit"));
    all
}

/// A lamp's seconds at the start, burnt and now.
fn sum(line: &str) -> Option<[u128; 3]> {
    let numbers: Vec<u128> = line.split_whitespace().filter_map(|word| word.parse().ok()).collect();
    <[u128; 4]>::try_from(numbers).ok().map(|[_, start, burnt, now]| [start, burnt, now])
}

/// The line's kind, if it has one; it is played.
fn kind(projector: &mut Projector, text: &[u8]) -> Option<&'static str> {
    if let Some((lamp, enabled)) = mark(text) {
        return Some(match projector.set_mark(lamp, enabled) {
            Ok(()) => "M, taken",
            Err(3) => "M, ! 3",
            Err(_) => "M, ! 7",
        });
    }
    let Some(event) = event(text) else { return text.starts_with(b"M").then_some("M of no form") };
    let (power, awaited) = (projector.power, is_awaiting(projector));
    let outcome = play(projector, event);
    match (event, power, projector.power, outcome) {
        (Event::Pass(0), ..) => Some("T 0"),
        (Event::Pass(0x8000_0000..), ..) => Some("T over 31 bits"),
        (Event::Receive(_), .., Outcome::Reply(reply)) if reply == b"PJLINK ERRA\r" => Some("refused its digest"),
        (Event::Receive(_), ..) if awaited && !is_awaiting(projector) => Some("opened by its digest"),
        (Event::Receive(_), Power::Off, Power::WarmUp(_), _) => Some("power on"),
        (Event::Receive(_), Power::On, Power::Cooling(_), _) => Some("power off"),
        (Event::Receive(_), .., Outcome::Reply(reply)) if reply.ends_with(b"POWR=ERR3\r") => Some("power stays, ERR3"),
        _ => None,
    }
}

fn is_awaiting(projector: &Projector) -> bool {
    matches!(projector.connections[PLACE], Connection::Awaiting { .. })
}
