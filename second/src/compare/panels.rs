//! Panels (RULES, Panel) at work: several projectors at once, the reference program's own at the other end of each
//! line, and lines that nobody asked for among theirs. `panel_records` has the panels, `every_panel` what leaves
//! nothing to chance.

use super::random::Random;
use super::{histories, panel_records, records, replies};
use crate::face::{Act, Answer, Command, Device, Entry, Panel, PanelAct, PanelCall, Side};
use crate::reference::rules::unmistaken;
use crate::reference::side::Second;

/// Most that are asked: power, input and lamps.
const SHOWN: [u8; 3] = [0, 2, 7];

/// What projectors, commands and replies are made by.
#[derive(Clone, Copy)]
pub struct Making {
    pub device: fn(&mut Random) -> Device,
    pub command: fn(&mut Random) -> Command,
    pub reply_line: fn(&mut Random, Command) -> Vec<u8>,
}

pub const CLASS_1: Making =
    Making { device: records::legal, command: replies::command, reply_line: replies::reply_line };

/// A projector at the other end, and what of it is on its way to the panel.
struct Far {
    device: Device,
    on_its_way: Vec<u8>,
}

/// Calls on one panel, each with the panel that the one before gave by the rules, whatever mistake is made.
pub fn history(random: &mut Random, making: Making) -> Vec<Act> {
    unmistaken(|| followed(random, making)).into_iter().map(|call| Act::Panel(Box::new(call))).collect()
}

fn followed(random: &mut Random, making: Making) -> Vec<PanelCall> {
    let mut calls = vec![PanelCall { panel: Panel::NONE, act: PanelAct::None }];
    let mut panel = Panel::NONE;
    let mut far = Vec::new();
    for _ in 0..random.pick(&[1, 1, 2, 2, 3, 8]) {
        let device = Device { connections: Device::BLANK.connections, ..(making.device)(random) };
        let password = password_for(random, &device);
        far.push(Far { device, on_its_way: Vec::new() });
        after(&mut calls, &mut panel, PanelAct::Add { password });
    }
    for entry in &mut panel.entries[..far.len()] {
        entry.strays = panel_records::strays(random);
    }
    while calls.len() < 60 && !random.one_in(60) {
        let projector = random.below(far.len());
        let act = act(random, &panel, projector, &mut far[projector], making);
        let sent = after(&mut calls, &mut panel, act);
        far[projector].hear(random, &sent);
    }
    calls
}

/// The panel goes on to what the call gives, with the bytes of the line that it wrote.
fn after(calls: &mut Vec<PanelCall>, panel: &mut Panel, act: PanelAct) -> Vec<u8> {
    let call = PanelCall { panel: *panel, act };
    let answer = Second.call(&Device::BLANK, &Act::Panel(Box::new(call.clone())));
    calls.push(call);
    match answer {
        Answer::PanelChanged(changed) => *panel = changed.panel,
        Answer::PanelSent(sent, out) => {
            *panel = sent.panel;
            return out[..sent.length].to_vec();
        }
        _ => unreachable!(),
    }
    Vec::new()
}

/// The projector's own, or at times another, which its digest then shows.
fn password_for(random: &mut Random, device: &Device) -> Vec<u8> {
    let own = &device.settings.password;
    let length = random.length_to(32);
    if random.one_in(4) { random.letters_or_digits(length) } else { own.bytes[..own.len].to_vec() }
}

impl Far {
    /// A line from the panel, and some time.
    fn hear(&mut self, random: &mut Random, line: &[u8]) {
        if random.one_in(4) {
            let seconds = histories::seconds(random, &self.device);
            self.call(&Act::Pass { seconds });
        }
        if !line.is_empty() {
            let act = Act::Receive { place: 0, bytes: line.to_vec(), lent: vec![0; 136] };
            self.on_its_way = self.call(&act);
        }
    }

    /// A new connection, and its greeting.
    fn greeting(&mut self, random: &mut Random) -> Vec<u8> {
        self.call(&Act::Close { place: 0 });
        self.call(&Act::Open { random: histories::any_random(random), lent: vec![0; 136] })
    }

    /// The reply bytes of a call.
    fn call(&mut self, act: &Act) -> Vec<u8> {
        let answer = Second.call(&self.device, act);
        self.device = *answer.device().expect("a call on a record");
        match answer {
            Answer::Opened(opened, out) => out[..opened.length].to_vec(),
            Answer::Received(received, out) => out[..received.length].to_vec(),
            _ => Vec::new(),
        }
    }
}

/// Mostly what comes next between the two; at times anything.
fn act(random: &mut Random, panel: &Panel, projector: usize, far: &mut Far, making: Making) -> PanelAct {
    let entry = &panel.entries[projector];
    match random.below(24) {
        0 => any_act(random, panel, making),
        1 => PanelAct::Lost { projector },
        2..=4 => PanelAct::Line { projector, line: any_line(random, entry, making) },
        5 if !far.on_its_way.is_empty() => PanelAct::Line { projector, line: far.on_its_way.clone() },
        _ if entry.greeting == 0 => PanelAct::Line { projector, line: far.greeting(random) },
        _ if entry.under_way.is_raised() && !far.on_its_way.is_empty() && !random.one_in(3) => {
            PanelAct::Line { projector, line: std::mem::take(&mut far.on_its_way) }
        }
        _ if entry.under_way.is_raised() => {
            PanelAct::Line { projector, line: (making.reply_line)(random, entry.command) }
        }
        _ => PanelAct::Command { projector, command: command(random, making), lent: random.reply_memory(168) },
    }
}

/// Any call, on any projector that there is or is not.
pub fn any_act(random: &mut Random, panel: &Panel, making: Making) -> PanelAct {
    let there = random.below(panel.count.clamp(1, 8));
    let low = random.below(10);
    let projector = random.pick(&[there, there, there, there, low, 1 << 32, (1 << 32) + there, usize::MAX]);
    match random.below(8) {
        0 => PanelAct::Add { password: any_password(random) },
        1 => PanelAct::Lost { projector },
        2..=3 => PanelAct::Command { projector, command: command(random, making), lent: random.reply_memory(168) },
        _ => PanelAct::Line { projector, line: any_line(random, &panel.entries[there], making) },
    }
}

pub fn any_password(random: &mut Random) -> Vec<u8> {
    let length = random.length_to(34);
    let mut password = random.letters_or_digits(length);
    if random.one_in(4) {
        random.damage(&mut password);
    }
    password
}

fn command(random: &mut Random, making: Making) -> Command {
    let asked = Command { code: random.pick(&SHOWN), first: random.byte(), second: random.byte() };
    let any = (making.command)(random);
    random.pick(&[asked, any])
}

/// A greeting, ERRA, a reply to what is under way or to something else, as a projector writes it or damaged.
fn any_line(random: &mut Random, entry: &Entry, making: Making) -> Vec<u8> {
    match random.below(12) {
        0..=2 => replies::greeting_line(random),
        3..=4 => b"PJLINK ERRA\r".to_vec(),
        5..=8 => (making.reply_line)(random, entry.command),
        9 => random.pick(&[&b""[..], b"\r", b"%1POWR=1", b"%1POWR=1\r\r", b"%2POWR=1\r", b"PJLINK ERRA"]).to_vec(),
        _ => {
            let command = command(random, making);
            (making.reply_line)(random, command)
        }
    }
}
