//! RULES, Panel, sentence by sentence.

use super::calls::{add, command, line, lost, none};
use crate::face::{Command, Entry, Flag, Panel};

const ERRA: &str = "PJLINK ERRA\r";
const ASK_POWER: Command = Command { code: 0, first: 0, second: 0 };
const SET_POWER: Command = Command { code: 1, first: 1, second: 0 };
const ASK_INPUT: Command = Command { code: 2, first: 0, second: 0 };
const ASK_LAMPS: Command = Command { code: 7, first: 0, second: 0 };
const ASK_NAME: Command = Command { code: 9, first: 0, second: 0 };

/// A panel of two projectors; what happens, happens to the second.
fn two(password: &str) -> Panel {
    let one = add(&none().panel, b"");
    let two = add(&one.panel, password.as_bytes());
    assert_eq!((one.number, two.number, two.panel.count), (0, 0, 2));
    two.panel
}

fn entry(panel: &Panel) -> Entry {
    assert_eq!(panel.entries[0], Entry::NONE, "only the named projector's entry is touched");
    panel.entries[1]
}

fn hears(panel: &Panel, said: &str) -> Panel {
    let given = line(panel, 1, said.as_bytes());
    assert_eq!(given.number, 0);
    given.panel
}

/// The panel after a command, and the line that it wrote.
fn sends(panel: &Panel, sent: Command) -> (Panel, String) {
    let mut out = [0; 168];
    let given = command(panel, 1, sent, &mut out);
    assert_eq!(given.number, 0);
    assert!(given.panel.entries[1].under_way.is_raised() && given.panel.entries[1].command == sent);
    (given.panel, String::from_utf8(out[..given.length].to_vec()).unwrap())
}

fn number(panel: &Panel, projector: usize, sent: Command, room: usize) -> u32 {
    let mut out = vec![7; room];
    let given = command(panel, projector, sent, &mut out);
    assert!(given.number == 0 || given.length == 0 && given.panel == *panel && out.iter().all(|&byte| byte == 7));
    given.number
}

/// The line is a stray: counted, and nothing else.
fn counts(panel: &Panel, said: &str) {
    let mut counted = *panel;
    counted.entries[1].strays += 1;
    assert_eq!(hears(panel, said), counted, "{said}");
}

/// "Until a greeting is accepted, any other line is malformed".
#[test]
fn before_the_greeting() {
    for said in [ERRA, "%1POWR=1\r", "PJLINK 0", "PJLINK 1 498E4A67\r", "", "\r"] {
        counts(&two(""), said);
    }
    assert_eq!(entry(&hears(&two(""), "PJLINK 0\r")), Entry { greeting: 1, ..Entry::NONE });
    let secured = Entry { greeting: 2, random: 0x498e_4a67, ..Entry::NONE };
    assert_eq!(entry(&hears(&two(""), "PJLINK 1 498e4a67\r")), secured);
}

/// "after it, a line with no command under way is late."
#[test]
fn with_no_command_under_way() {
    let panel = hears(&two(""), "PJLINK 0\r");
    for said in [ERRA, "PJLINK 0\r", "PJLINK 1 498e4a67\r", "%1POWR=1\r", "%1POWR=OK\r", ""] {
        counts(&panel, said);
    }
}

/// "A malformed or foreign line leaves the command under way".
#[test]
fn malformed_and_foreign_lines() {
    let (panel, _) = sends(&hears(&two(""), "PJLINK 0\r"), ASK_POWER);
    for said in ["%1LAMP=1 1\r", "%1INPT=ERR3\r", "%1POWR=4\r", "%1POWR=OK\r", "PJLINK 0\r", "PJLINK 1 498e4a67\r", ""]
    {
        counts(&panel, said);
    }
}

/// "any accepted reply ends it, and an OK or error changes no reading".
#[test]
fn accepted_replies() {
    let open = hears(&two(""), "PJLINK 0\r");
    let greeted = entry(&open);
    let reply = |panel: &Panel, sent, said| hears(&sends(panel, sent).0, said);
    for (sent, said) in [
        (SET_POWER, "%1POWR=OK\r"),
        (SET_POWER, "%1POWR=ERR3\r"),
        (ASK_INPUT, "%1inpt=ERR3\r"),
        (ASK_NAME, "%1NAME=1\r"),
    ] {
        assert_eq!(entry(&reply(&open, sent, said)), greeted);
    }
    let warm = reply(&open, ASK_POWER, "%1POWR=3\r");
    assert_eq!(entry(&warm), Entry { power_known: Flag::YES, power: 3, ..greeted });
    let chosen = reply(&warm, ASK_INPUT, "%1INPT=32\r");
    assert_eq!(entry(&chosen), Entry { input_known: Flag::YES, input_type: 3, input_number: 2, ..entry(&warm) });
    let lamps = reply(&chosen, ASK_LAMPS, "%1LAMP=6 1 00412 0 99999 1\r");
    let hours = [6, 412, 99_999, 0, 0, 0, 0, 0];
    let lit = [true, false, true, false, false, false, false, false].map(Flag::from);
    assert_eq!(entry(&lamps), Entry { lamps_known: Flag::YES, lamp_count: 3, hours, lit, ..entry(&chosen) });
    let fewer = entry(&reply(&lamps, ASK_LAMPS, "%1LAMP=7 0\r"));
    assert_eq!((fewer.lamp_count, fewer.hours, fewer.lit), (1, [7, 0, 0, 0, 0, 0, 0, 0], [Flag::NO; 8]));
    assert_eq!(reply(&lamps, ASK_POWER, "%1POWR=ERR4\r"), lamps);
}

/// "ERRA ends it, makes that projector's readings unknown and awaits a new greeting." Of a lost connection the readings
/// stay.
#[test]
fn erra_and_lost() {
    let open = hears(&two("pw1"), "PJLINK 0\r");
    let on = hears(&sends(&open, ASK_POWER).0, "%1POWR=1\r");
    counts(&on, ERRA);
    let (asked, _) = sends(&hears(&on, "late"), ASK_LAMPS);
    let awaited = Entry { greeting: 0, strays: 1, ..two("pw1").entries[1] };
    assert_eq!(entry(&hears(&asked, ERRA)), awaited);
    let gone = lost(&asked, 1);
    assert_eq!((gone.number, entry(&gone.panel)), (0, Entry { power_known: Flag::YES, power: 1, ..awaited }));
    assert_eq!(lost(&gone.panel, 1).panel, gone.panel);
}

/// "The first command after a secured greeting is led by the digest, no later one is." The example of PJLink 1.04, 5.1.
#[test]
fn the_digest_leads_the_first() {
    let greeted = hears(&two("JBMIAProjectorLink"), "PJLINK 1 498e4a67\r");
    let (asked, first) = sends(&greeted, ASK_POWER);
    assert_eq!(first, "5d8409bc1c3fa39749434aa3a5c38682%1POWR ?\r");
    let (asked, second) = sends(&hears(&asked, "%1POWR=0\r"), SET_POWER);
    assert_eq!(second, "%1POWR 1\r");
    let again = hears(&lost(&asked, 1).panel, "PJLINK 1 498e4a67\r");
    assert_eq!(sends(&again, ASK_POWER).1, first);
    let open = hears(&two("JBMIAProjectorLink"), "PJLINK 0\r");
    assert_eq!(sends(&open, ASK_POWER).1, "%1POWR ?\r");
}

/// "A command before the greeting or over another is new number 9; no such projector is 3." Before them 1 and 2.
#[test]
fn numbers_of_a_command() {
    let awaited = two("");
    let none = Command { code: 24, first: 0, second: 0 };
    let asked = sends(&hears(&awaited, "PJLINK 0\r"), ASK_POWER).0;
    for panel in [awaited, asked] {
        assert_eq!(number(&panel, 1, ASK_POWER, 168), 9);
        assert_eq!(number(&panel, 1, none, 168), 3);
        assert_eq!(number(&panel, 2, ASK_POWER, 168), 3);
        assert_eq!(number(&panel, usize::MAX, ASK_POWER, 168), 3);
        assert_eq!(number(&panel, 2, none, 167), 2);
        let mut illegal = panel;
        illegal.entries[2].strays = 1;
        assert_eq!(number(&illegal, 2, none, 0), 1);
    }
}

#[test]
fn adding() {
    let mut panel = none().panel;
    for count in 0..8 {
        assert_eq!((add(&panel, &[b'a'; 33]).number, add(&panel, b"a b").number), (3, 3));
        let given = add(&panel, &vec![b'a'; 4 * count + 4]);
        assert_eq!(
            (given.number, given.panel.count, given.panel.entries[count].password.len),
            (0, count + 1, 4 * count + 4)
        );
        panel = given.panel;
    }
    assert_eq!(add(&panel, b""), crate::face::PanelChanged { number: 3, panel });
}

/// "a per-projector count of such lines, stopped at 65,535."
#[test]
fn strays_stop() {
    let mut panel = two("");
    for strays in 1..=65_540 {
        panel = hears(&panel, "%1POWR=1\r");
        assert_eq!(entry(&panel), Entry { strays: strays.min(65_535), ..Entry::NONE });
    }
}
