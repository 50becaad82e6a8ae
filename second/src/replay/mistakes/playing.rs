//! Mistakes in what an event does, and in what is printed.

use super::Wrong::{self, Call, Ends, Plays, Prints};
use crate::reference::Projector;
use crate::reference::rules::Mistake;
use crate::replay::{Event, Outcome, PLACE, play, sample};

pub const PLAYING: &[(&str, Wrong)] = &[
    // "`O`, a space and eight lowercase hex digits opens"
    (
        "a second O opens again",
        Plays(|projector, event| {
            if let Event::Open(_) = event {
                projector.close(PLACE);
            }
            play(projector, event)
        }),
    ),
    (
        "a second O closes, though it is refused",
        Plays(|projector, event| match event {
            Event::Open(_) if !is_closed(projector) => {
                projector.close(PLACE);
                Outcome::Refused(5)
            }
            _ => play(projector, event),
        }),
    ),
    (
        "a second O is refused with 4",
        Plays(|projector, event| match event {
            Event::Open(_) if !is_closed(projector) => Outcome::Refused(4),
            _ => play(projector, event),
        }),
    ),
    (
        "a second O is refused with 6",
        Plays(|projector, event| match event {
            Event::Open(_) if !is_closed(projector) => Outcome::Refused(6),
            _ => play(projector, event),
        }),
    ),
    (
        "a second O opens the next place, till none is left",
        Plays(|projector, event| match event {
            Event::Open(random) => match (0..4).find(|&place| projector.is_closed(place)) {
                Some(place) => Outcome::Reply(projector.open(place, random)),
                None => Outcome::Refused(6),
            },
            _ => play(projector, event),
        }),
    ),
    (
        "opening begins from the set-up",
        Plays(|projector, event| {
            if let (Event::Open(_), true) = (event, is_closed(projector)) {
                *projector = sample();
            }
            play(projector, event)
        }),
    ),
    // "`R`, a space and text receives it plus a CR"
    (
        "no CR follows the text",
        Plays(|projector, event| match event {
            Event::Receive(text) if !is_closed(projector) => Outcome::Reply(projector.receive(PLACE, text).1),
            _ => play(projector, event),
        }),
    ),
    (
        "R on a closed connection is passed over",
        Plays(|projector, event| match event {
            Event::Receive(_) if is_closed(projector) => nothing(),
            _ => play(projector, event),
        }),
    ),
    // "`T`, a space and a number passes seconds"; "the number is one to ten decimal digits, at most 4,294,967,295"
    (
        "T on a closed connection is refused",
        Plays(|projector, event| match event {
            Event::Pass(_) if is_closed(projector) => Outcome::Refused(4),
            _ => play(projector, event),
        }),
    ),
    (
        "an open connection closes at the age of 30",
        Plays(|projector, event| {
            let outcome = play(projector, event);
            if let Event::Pass(30..) = event {
                projector.close(PLACE);
            }
            outcome
        }),
    ),
    // "`X` closes"
    (
        "X on a closed connection is passed over",
        Plays(|projector, event| match event {
            Event::Close if is_closed(projector) => nothing(),
            _ => play(projector, event),
        }),
    ),
    // "the line number, a space and the reply without CR, or `-` for none, or `! ` and the number of a refusal"
    ("lines are counted from 0", Prints(|number, told| format!("{} {told}", number - 1))),
    ("a line's number has 16 bits", Prints(|number, told| format!("{} {told}", number as u16))),
    (
        "a reply keeps its CR",
        Prints(|number, told| format!("{number} {told}{}", if told.starts_with(['%', 'P']) { "\r" } else { "" })),
    ),
    ("nothing is printed for no reply", Prints(|number, told| format!("{number} {}", told.trim_start_matches('-')))),
    ("no space follows the !", Prints(|number, told| format!("{number} {}", told.replace("! ", "!")))),
    // "after the last, one line with power and lamp seconds"
    ("an empty log prints nothing", Ends(|out| if out.lines().count() > 1 { out.to_string() } else { String::new() })),
    ("the last line says on in warm-up", Ends(|out| out.replace("power 3", "power 1"))),
    ("the last line says off in cooling", Ends(|out| out.replace("power 2", "power 0"))),
    ("the last line has no LF", Ends(|out| out.trim_end().to_string())),
    // the rules of a call, as the replay shows them
    ("lamps gain seconds in cooling too", Call(Mistake::CoolingBurns)),
    ("warm-up is left one second late", Call(Mistake::WarmUpLeftLate)),
    ("lamp seconds pass the limit", Call(Mistake::LampNotStopped)),
    ("a text of 136 bytes is answered", Call(Mistake::LongLineTaken)),
    ("lamp hours are rounded up", Call(Mistake::HoursRoundedUp)),
    ("the echoed body is upper-cased", Call(Mistake::BodyUpperCased)),
    ("AVMT 1 mutes the sound and 2 the picture", Call(Mistake::MutesSwapped)),
];

fn nothing() -> Outcome {
    Outcome::Reply(Vec::new())
}

fn is_closed(projector: &Projector) -> bool {
    projector.is_closed(PLACE)
}
