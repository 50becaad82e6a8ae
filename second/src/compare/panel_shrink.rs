//! A call on a panel (RULES, Panel) cut down: `shrink` has the other calls.

use super::shrink::{memories, shorter, simpler_bytes, simpler_commands, zeroed};
use crate::face::{Command, Entry, Flag, Panel, PanelAct, PanelCall, Text};

/// The named projector alone, a panel with less in it, then a simpler call.
pub fn simpler(call: &PanelCall) -> Vec<PanelCall> {
    let PanelCall { panel, act } = call;
    let mut panels: Vec<Panel> = fewer_projectors(panel).collect();
    panels.extend(plainer_entries(panel));
    panels.extend(zeroed(panel, &[36, 8, 4, 1]));
    let panels = panels.into_iter().map(|panel| PanelCall { panel, act: act.clone() });
    let acts = simpler_acts(act).into_iter().map(|act| PanelCall { panel: *panel, act });
    let alone = named_alone(call).filter(|alone| alone != call);
    alone.into_iter().chain(panels).chain(acts).collect()
}

fn named_alone(call: &PanelCall) -> Option<PanelCall> {
    let entry = *call.panel.entries.get(call.act.projector()?)?;
    Some(PanelCall { panel: Panel::of(&[entry]), act: call.act.clone().on(0) })
}

fn fewer_projectors(panel: &Panel) -> impl Iterator<Item = Panel> {
    let used = panel.entries.get(..panel.count).unwrap_or(&[]);
    shorter(used).map(|entries| Panel::of(&entries))
}

/// One entry without its password, its command, its greeting, its strays, or one of its readings.
fn plainer_entries(panel: &Panel) -> Vec<Panel> {
    let mut all = Vec::new();
    for place in 0..8 {
        let entry = panel.entries[place];
        let no_command = Entry { under_way: Flag::NO, command: Command { code: 0, first: 0, second: 0 }, ..entry };
        let plainer = [
            Entry::NONE,
            Entry { password: Text::EMPTY, ..entry },
            no_command,
            Entry { greeting: 0, random: 0, led: Flag::NO, ..no_command },
            Entry { strays: 0, ..entry },
            Entry { power_known: Flag::NO, power: 0, ..entry },
            Entry { input_known: Flag::NO, input_type: 0, input_number: 0, ..entry },
            Entry { lamps_known: Flag::NO, lamp_count: 0, hours: [0; 8], lit: [Flag::NO; 8], ..entry },
        ];
        all.extend(plainer.into_iter().filter(|plainer| *plainer != entry).map(|plainer| {
            let mut panel = *panel;
            panel.entries[place] = plainer;
            panel
        }));
    }
    all
}

fn simpler_acts(act: &PanelAct) -> Vec<PanelAct> {
    let lower = |projector: usize| [0, 1, projector / 2].into_iter().filter(move |&lower| lower < projector);
    let mut all: Vec<PanelAct> =
        act.projector().into_iter().flat_map(lower).map(|other| act.clone().on(other)).collect();
    match act {
        PanelAct::None | PanelAct::Lost { .. } => (),
        PanelAct::Add { password } => all.extend(simpler_bytes(password).map(|password| PanelAct::Add { password })),
        PanelAct::Command { projector, command, lent } => {
            let with = |command, lent: &[u8]| PanelAct::Command { projector: *projector, command, lent: lent.to_vec() };
            all.extend(simpler_commands(*command).map(|command| with(command, lent)));
            all.extend(memories(lent).map(|lent| with(*command, &lent)));
        }
        PanelAct::Line { projector, line } => {
            all.extend(simpler_bytes(line).map(|line| PanelAct::Line { projector: *projector, line }));
        }
    }
    all
}
