//! The lines that settle it (RULES, Commands), on the sample set-up with its connection open.

use super::Projector;
use crate::replay::sample;

fn opened() -> Projector {
    let mut projector = sample();
    assert_eq!(projector.open(0, 0), b"PJLINK 0\r");
    projector
}

fn answers(projector: &mut Projector, line: &str, reply: &str) {
    let (taken, given) = projector.receive(0, format!("{line}\r").as_bytes());
    assert_eq!(taken, line.len() + 1);
    assert_eq!(String::from_utf8(given).unwrap(), format!("{reply}\r"));
}

#[test]
fn lines_on_a_device_that_is_off() {
    for (line, reply) in [
        ("%1powr 1", "%1powr=OK"),
        ("%1POWR 2", "%1POWR=ERR2"),
        ("%1ABCD x", "%1ABCD=ERR1"),
        ("%1NAME x", "%1NAME=ERR1"),
        ("%1CLSS ?", "%1CLSS=1"),
        ("%1INPT ?", "%1INPT=ERR3"),
        ("%1INPT 12", "%1INPT=ERR2"),
    ] {
        answers(&mut opened(), line, reply);
    }
}

#[test]
fn warm_up_ends_at_its_last_second() {
    for (seconds, line, reply) in [
        (19, "%1POWR ?", "%1POWR=3"),
        (20, "%1POWR ?", "%1POWR=1"),
        (3599, "%1LAMP ?", "%1LAMP=0 1"),
        (3600, "%1LAMP ?", "%1LAMP=1 1"),
    ] {
        let mut projector = opened();
        answers(&mut projector, "%1POWR 1", "%1POWR=OK");
        projector.pass(seconds);
        answers(&mut projector, line, reply);
    }
}

#[test]
fn nine_rounds_of_forty_minutes_are_six_hours() {
    let mut projector = opened();
    for _ in 0..9 {
        answers(&mut projector, "%1POWR 1", "%1POWR=OK");
        projector.pass(2400);
        answers(&mut projector, "%1POWR 0", "%1POWR=OK");
        projector.pass(60);
    }
    answers(&mut projector, "%1LAMP ?", "%1LAMP=6 0");
}
