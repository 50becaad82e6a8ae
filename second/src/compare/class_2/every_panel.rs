//! Panels with commands and replies of Class 2, leaving nothing to chance.

use super::replies::head;
use crate::compare::every_panel::moments;
use crate::face::{Act, Command, Entry, Flag, Panel, PanelAct, PanelCall};

pub fn calls() -> Vec<Act> {
    let mut all = with_every_input();
    all.extend(with_every_command());
    all.into_iter().map(|call| Act::Panel(Box::new(call))).collect()
}

/// Each type and number of an input, known and not.
fn with_every_input() -> Vec<PanelCall> {
    let mut all = Vec::new();
    for (input_type, input_number) in (0..=8).flat_map(|kind| (0..=38).map(move |number| (kind, number))) {
        for input_known in [Flag::YES, Flag::NO] {
            let entry = Entry { input_known, input_type, input_number, ..moments()[1] };
            let panel = Panel::of(&[moments()[2], entry]);
            all.push(PanelCall { panel, act: PanelAct::Lost { projector: 0 } });
        }
    }
    all
}

/// Each command sent, and each one under way with replies to it, to another, of the other class.
fn with_every_command() -> Vec<PanelCall> {
    let mut all = Vec::new();
    let fields = [(0, 0), (1, 1), (1, 10), (2, 2), (6, 35), (6, 36), (7, 1), (255, 255)];
    let parameters = ["OK", "ERR1", "ERR2", "ERR4", "0", "1", "2", "11", "6A", "6a", "59 6Z", "name", ""];
    for (code, (first, second)) in (2..=25).flat_map(|code| fields.map(|fields| (code, fields))) {
        let command = Command { code, first, second };
        for entry in [moments()[0], moments()[1], moments()[3], moments()[4]] {
            let panel = Panel::of(&[moments()[2], entry]);
            all.push(PanelCall { panel, act: PanelAct::Command { projector: 1, command, lent: vec![0xA5; 168] } });
        }
        let entry = Entry { under_way: Flag::YES, command, ..moments()[1] };
        let panel = Panel::of(&[moments()[2], entry, moments()[5]]);
        let mut line = |line: Vec<u8>| all.push(PanelCall { panel, act: PanelAct::Line { projector: 1, line } });
        let (_, body) = head(usize::from(code).min(23));
        for (digit, parameter) in b"12".iter().flat_map(|digit| parameters.map(|parameter| (*digit, parameter))) {
            line([&[b'%', digit], &body[..], b"=", parameter.as_bytes(), b"\r"].concat());
            line([&[b'%', digit], &b"INPT="[..], parameter.as_bytes(), b"\r"].concat());
        }
        line(b"PJLINK ERRA\r".to_vec());
        line(b"PJLINK 0\r".to_vec());
    }
    all
}
