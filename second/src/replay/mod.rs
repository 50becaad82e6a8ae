//! RULES, Floor log: a log from the floor, played on the sample set-up, or on the device of a stored form; of the first
//! kind here, of the second in `history`. `mistakes` has the deliberate ones.

mod device;
pub mod history;
pub mod mistakes;
pub mod unplayed;

pub use device::{device, sample};

use crate::reference::Projector;
use crate::reference::places::NOT_CLOSED;
use crate::reference::text::{CR, LF, hex_number};
use history::History;
use std::io::{self, BufRead, Cursor, Read, Write};
use unplayed::Note;

/// RULES, Places: ".. log drives place 0 only, and a second `O` there still prints `! 5`, by the program's own test."
pub const PLACE: usize = 0;

/// "over 4,096 bytes prints its number, a space and `?` and changes nothing".
pub const LONGEST: usize = 4096;

#[derive(Clone, Copy, PartialEq, Eq, Debug)]
pub enum Event<'a> {
    Open(u32),
    Receive(&'a [u8]),
    Pass(u32),
    Close,
}

pub enum Outcome {
    Reply(Vec<u8>),
    Refused(u32),
}

/// "`O`, a space and eight lowercase hex digits opens, `R`, a space and text receives it plus a CR, `T`, a space and a
/// number passes seconds, `X` closes."
pub fn event(line: &[u8]) -> Option<Event<'_>> {
    if line.len() > LONGEST || line.contains(&CR) {
        return None;
    }
    match line {
        [b'O', b' ', digits @ ..] => hex_number(digits).map(Event::Open),
        [b'R', b' ', text @ ..] => Some(Event::Receive(text)),
        [b'T', b' ', digits @ ..] => seconds(digits).map(Event::Pass),
        b"X" => Some(Event::Close),
        _ => None,
    }
}

/// "the number is one to ten decimal digits, at most 4,294,967,295".
fn seconds(digits: &[u8]) -> Option<u32> {
    if !(1..=10).contains(&digits.len()) || !digits.iter().all(|d| d.is_ascii_digit()) {
        return None;
    }
    let number = digits.iter().fold(0, |number, digit| number * 10 + u64::from(digit - b'0'));
    u32::try_from(number).ok()
}

/// How an event is played.
type Play = fn(&mut Projector, Event) -> Outcome;

pub fn play(projector: &mut Projector, event: Event) -> Outcome {
    let closed = projector.is_closed(PLACE);
    match event {
        Event::Open(_) if !closed => Outcome::Refused(NOT_CLOSED),
        Event::Open(random) => Outcome::Reply(projector.open(PLACE, random)),
        Event::Receive(_) | Event::Close if closed => Outcome::Refused(4),
        Event::Receive(text) => {
            let mut line = text.to_vec();
            line.push(CR);
            Outcome::Reply(projector.receive(PLACE, &line).1)
        }
        Event::Pass(seconds) => {
            projector.pass(seconds);
            Outcome::Reply(Vec::new())
        }
        Event::Close => {
            projector.close(PLACE);
            Outcome::Reply(Vec::new())
        }
    }
}

/// "the reply without CR, or `-` for none, or `! ` and the number of a refusal"; `?` for a line of no such form.
fn told(outcome: Option<Outcome>) -> Vec<u8> {
    match outcome {
        None => b"?".to_vec(),
        Some(Outcome::Refused(number)) => format!("! {number}").into_bytes(),
        Some(Outcome::Reply(reply)) => match reply.strip_suffix(&[CR]) {
            Some(text) => text.to_vec(),
            None => b"-".to_vec(),
        },
    }
}

pub fn replay(form: Option<&[u8]>, log: impl BufRead, out: impl Write) -> io::Result<()> {
    replay_by(play, &history::RIGHT, form, log, out)
}

/// After the last line, power as POWR answers it and the lamp seconds, each after a space. "a form that does not load
/// gives its number in one line, and nothing else".
fn replay_by(
    play: Play,
    steps: &history::Steps,
    form: Option<&[u8]>,
    log: impl BufRead,
    mut out: impl Write,
) -> io::Result<()> {
    let mut projector = match device(form) {
        Ok(projector) => projector,
        Err(number) => return refuse(number, out),
    };
    let mut tell = |number: u64, outcome| {
        write!(out, "{number} ")?;
        out.write_all(&told(outcome))?;
        out.write_all(b"\n")
    };
    let (is_history, log) = kind(steps, log)?;
    let mut history = History::begun(steps, form);
    let mut number = 0;
    each_line(log, |line| {
        if is_history {
            let played = history.play(&mut projector, line);
            return played.map_or(Ok(()), |(number, reply)| tell(number, Some(Outcome::Reply(reply))));
        }
        number += 1;
        tell(number, event(text_of(line)).map(|event| play(&mut projector, event)))
    })?;
    let lamps: String = projector.lamps.iter().map(|seconds| format!(" {seconds}")).collect();
    writeln!(out, "power {} lamps{lamps}", char::from(projector.power_digit()))?;
    if let Some(words) = history.words() {
        writeln!(out, "{words}")?;
    }
    out.flush()
}

pub fn refuse(number: u32, mut out: impl Write) -> io::Result<()> {
    writeln!(out, "! {number}")?;
    out.flush()
}

/// Whether a log is a history, and the log from its start on.
pub fn kind(steps: &history::Steps, mut log: impl BufRead) -> io::Result<(bool, impl BufRead)> {
    let mut first = Vec::new();
    log.read_until(LF, &mut first)?;
    Ok(((steps.is_history)(&first), Cursor::new(first).chain(log)))
}

/// "Lines end with LF, the last perhaps without": each in turn, with the LF that it has.
pub fn each_line(mut log: impl BufRead, mut each: impl FnMut(&[u8]) -> io::Result<()>) -> io::Result<()> {
    let mut line = Vec::new();
    while log.read_until(LF, &mut line)? > 0 {
        each(&line)?;
        line.clear();
    }
    Ok(())
}

/// The lines of a log, each with the LF that it has.
pub fn lines(log: &[u8]) -> impl Iterator<Item = &[u8]> {
    log.split_inclusive(|&byte| byte == LF)
}

/// A line without its LF.
pub fn text_of(line: &[u8]) -> &[u8] {
    line.strip_suffix(&[LF]).unwrap_or(line)
}

/// What a log in memory prints.
pub fn replayed(log: &[u8]) -> Vec<u8> {
    replayed_on(None, log)
}

pub fn replayed_on(form: Option<&[u8]>, log: &[u8]) -> Vec<u8> {
    in_memory(play, &history::RIGHT, form, log)
}

/// How a program ends by these rules, and what it says on standard error.
#[derive(Clone, PartialEq, Eq, Debug)]
pub struct Due {
    pub status: i32,
    /// None where it is one line that names a file.
    pub errors: Option<String>,
}

impl Due {
    /// A log that was read to its end, of which this is said.
    pub fn ended(errors: String) -> Due {
        Due { status: if errors.is_empty() { 0 } else { 3 }, errors: Some(errors) }
    }

    /// A form that does not load.
    pub const REFUSED: Due = Due { status: 1, errors: None };
}

/// What is said of the first line that does not belong to its history.
pub fn stray_words(words: Option<String>) -> String {
    words.map(|words| words + "; what is written is of the lines before it\n").unwrap_or_default()
}

/// How `replay` ends, and what it says.
pub fn due(form: Option<&[u8]>, log: &[u8]) -> Due {
    due_by(&unplayed::RIGHT, form, log)
}

pub fn due_by(says: &unplayed::Says, form: Option<&[u8]>, log: &[u8]) -> Due {
    let Ok(mut projector) = device(form) else { return Due::REFUSED };
    if history::is_history(log) {
        let mut history = History::begun(&history::RIGHT, form);
        lines(log).for_each(|line| drop(history.play(&mut projector, line)));
        return Due::ended(stray_words(history.words()));
    }
    let notes = (1..).zip(lines(log).map(text_of)).filter_map(|(number, line)| {
        let refused = match event(line).map(|event| play(&mut projector, event)) {
            None => None,
            Some(Outcome::Refused(number)) => Some(number),
            Some(Outcome::Reply(_)) => return None,
        };
        Some(Note { number, line: line.to_vec(), refused })
    });
    Due::ended(unplayed::words(says, notes.collect()))
}

/// The same by other steps.
pub fn replayed_by(steps: &history::Steps, form: Option<&[u8]>, log: &[u8]) -> Vec<u8> {
    in_memory(play, steps, form, log)
}

fn in_memory(play: Play, steps: &history::Steps, form: Option<&[u8]>, log: &[u8]) -> Vec<u8> {
    let mut out = Vec::new();
    replay_by(play, steps, form, log, &mut out).expect("memory takes what is written");
    out
}

#[cfg(test)]
mod tests {
    use crate::compare::forms;
    use crate::face::Lent;

    fn replayed(log: &[u8]) -> String {
        String::from_utf8(super::replayed(log)).unwrap()
    }

    /// The example of RULES, Floor log.
    #[test]
    fn example() {
        let log = b"O 00000000\nR %1POWR 1\nT 3600\nR %1LAMP ?\n";
        let told = "1 PJLINK 0\n2 %1POWR=OK\n3 -\n4 %1LAMP=1 1\npower 1 lamps 3600\n";
        assert_eq!(replayed(log), told);
        assert_eq!(replayed(&log[..log.len() - 1]), told);
    }

    #[test]
    fn refusals_and_other_lines() {
        let log =
            b"X\nR %1POWR ?\nO 0000000A\nO 0000000a\nO 00000000\nT 4294967296\nT 4294967295\nT 00000000001\n\nR x\nX\n";
        let told = "1 ! 4\n2 ! 4\n3 ?\n4 PJLINK 0\n5 ! 5\n6 ?\n7 -\n8 ?\n9 ?\n10 -\n11 -\npower 0 lamps 0\n";
        assert_eq!(replayed(log), told);
    }

    #[test]
    fn long_lines_and_carriage_returns() {
        let line = |length: usize| [b"R ", vec![b'a'; length - 2].as_slice(), b"\n"].concat();
        let log = [b"O 00000000\n", &line(4096)[..], &line(4097), b"R %1CLSS\r ?\nX \nT \n"].concat();
        assert_eq!(replayed(&log), "1 PJLINK 0\n2 -\n3 ?\n4 ?\n5 ?\n6 ?\npower 0 lamps 0\n");
        assert_eq!(replayed(b""), "power 0 lamps 0\n");
    }

    /// "`replay` takes the same argument"; "`replay` still answers `?`" to an `M` line.
    #[test]
    fn on_a_form() {
        let on = |form: &[u8]| String::from_utf8(super::replayed_on(Some(form), b"M 1 0\nO 00000000\n")).unwrap();
        let lent = Lent { lamps: vec![5, 6], ..forms::least() };
        assert_eq!(on(&forms::of(&lent)), "1 ?\n2 PJLINK 0\npower 0 lamps 5 6\n");
        assert_eq!(on(&forms::of(&forms::least())), "1 ?\n2 PJLINK 0\npower 0 lamps\n");
        assert_eq!(on(&forms::marked(&lent, &[0, 0])), "! 23\n");
    }
}
