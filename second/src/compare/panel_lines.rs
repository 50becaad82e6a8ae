//! Each kind of line at each moment of a panel's projector (RULES, Panel), and after each command; strays up to the
//! most.

use super::every_panel::moments;
use crate::face::{Command, Entry, Flag, Panel, PanelAct, PanelCall};
use crate::reference::commands::BODIES;

pub fn calls() -> Vec<PanelCall> {
    let lines = lines();
    let mut entries = moments();
    entries.extend(commands().into_iter().map(|command| Entry { under_way: Flag::YES, command, ..moments()[1] }));
    for strays in [0, 254, 255, 65_533, 65_534, 65_535] {
        entries.push(Entry { strays, ..moments()[0] });
        entries.push(Entry { strays, ..moments()[1] });
        entries.push(Entry { strays, ..moments()[2] });
    }
    let at_each = |entry: &Entry| {
        // between two others, which nothing may touch
        let panel = Panel::of(&[moments()[2], *entry, moments()[5]]);
        let line = |line: &Vec<u8>| PanelCall { panel, act: PanelAct::Line { projector: 1, line: line.clone() } };
        let commands = commands().into_iter().map(move |command| {
            let act = PanelAct::Command { projector: 1, command, lent: vec![0xAA; 168] };
            PanelCall { panel, act }
        });
        lines.iter().map(line).chain(commands).collect::<Vec<_>>()
    };
    entries.iter().flat_map(at_each).collect()
}

/// Each command, the sets with each field at its ends, and some that are none.
fn commands() -> Vec<Command> {
    let queries = [0, 2, 4, 6, 7, 8, 9, 10, 11, 12, 13, 14, 255].map(|code| (code, 0, 0));
    let sets = [(1, 0, 0), (1, 1, 9), (3, 1, 1), (3, 5, 9), (3, 6, 1), (5, 1, 0), (5, 3, 1), (5, 4, 0)];
    let of = |&(code, first, second): &(u8, u8, u8)| Command { code, first, second };
    queries.iter().chain(&sets).map(of).collect()
}

/// Replies of each body with parameters that some body allows; greetings; what is neither.
fn lines() -> Vec<Vec<u8>> {
    let parameters = [
        "OK",
        "ERR1",
        "ERR2",
        "ERR3",
        "ERR4",
        "ERR5",
        "",
        "0",
        "1",
        "2",
        "3",
        "4",
        "11",
        "59",
        "60",
        "30",
        "31",
        "000000",
        "012012",
        "0 0",
        "412 1",
        "00412 1 99999 0",
        "1 1 2 1 3 1 4 1 5 1 6 1 7 1 8 1",
        "1 1 2 1 3 1 4 1 5 1 6 1 7 1 8 1 9 1",
        "100000 0",
        "11 32",
        "Table",
    ];
    let mut all = Vec::new();
    for (_, body) in BODIES {
        for parameter in parameters {
            all.push([b"%1", &body[..], b"=", parameter.as_bytes(), b"\r"].concat());
        }
        all.push([b"%1", &body.to_ascii_lowercase()[..], b"=1\r"].concat());
        all.push([b"%1", &body[..], b" ?\r"].concat());
    }
    let others = [
        "PJLINK 0\r",
        "PJLINK 1 00000000\r",
        "PJLINK 1 498e4a67\r",
        "PJLINK 1 ffffffff\r",
        "PJLINK 1 498E4A67\r",
        "PJLINK ERRA\r",
        "pjlink erra\r",
        "PJLINK ERRA",
        "PJLINK 0",
        "PJLINK 0\r\r",
        "PJLINK 1 498e4a67",
        "PJLINK 1\r",
        "PJLINK 2\r",
        "",
        "\r",
        "%1POWR=1",
        "%2POWR=1\r",
        "%1POWR=1\r\n",
        "%1ABCD=ERR1\r",
        "%1POWR\r",
        "POWR=1\r",
    ];
    all.extend(others.map(|line| line.as_bytes().to_vec()));
    all.push([&b"%1LAMP="[..], &[b'1'; 128], b"\r"].concat());
    all.push([&b"%1POWR="[..], &[b'1'; 129], b"\r"].concat());
    all
}
