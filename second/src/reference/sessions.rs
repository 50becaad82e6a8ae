//! A connection named by its place and the random number of its opening. By RULES, The C face: "In a session
//! `pj_receive_session_in_place` is receiving and `pj_close_session_in_place` closing. Where the connection at the place is
//! closed, or was opened with another number, they are refused with 4, after 1, 2 and 3"; and "`pj_pass_telling_in_place`
//! passes time, and tells the places that this closed: bit p for place p, none with a refusal". And by RULES, Panel, "the
//! same step, and tells what the line was", which `panel::calls` has.

use super::panel;
use super::rules::{Mistake, made_now};
use crate::face::{Act, Answer, Changed, Device, PLACES, PanelAct, Received};

/// The numbers by which the call is named: that of the connection at its place, one that differs in a bit, and none. Of
/// a call that is at no place it is passed over.
pub fn numbers(device: &Device, act: &Act) -> Vec<u32> {
    match act {
        Act::Close { place } | Act::Receive { place, .. } => {
            let its = device.connections.get(*place).map_or(0, |connection| connection.random);
            vec![its, its ^ 1 << (its % 32), 0]
        }
        Act::Pass { .. } | Act::PassInPlace { .. } => vec![0],
        Act::Panel(call) if matches!(call.act, PanelAct::Line { .. }) => vec![0],
        _ => Vec::new(),
    }
}

/// What the call gives so named, where the one at the place alone gives that.
pub fn named(device: &Device, random: u32, act: &Act, alone: Answer) -> Answer {
    let mistake = made_now();
    match (act, alone) {
        (Act::Close { place }, Answer::Changed(Changed { number: 0, .. })) if !is_session(device, *place, random) => {
            Answer::Changed(Changed { number: 4, device: *device })
        }
        (Act::Receive { place, lent, .. }, Answer::Received(Received { number: 0, .. }, _))
            if !is_session(device, *place, random) =>
        {
            Answer::Received(Received { number: 4, taken: 0, length: 0, device: *device }, lent.clone())
        }
        (Act::Pass { .. } | Act::PassInPlace { .. }, Answer::Changed(passed)) => {
            let closed = (0..PLACES).filter(|&place| {
                let phases = (device.connections[place].phase, passed.device.connections[place].phase);
                match mistake {
                    Some(Mistake::ClosedBeforeToldClosed) => phases.1 == 0,
                    Some(Mistake::OpenToldClosed) => phases.0 != 0 && phases.1 != 0,
                    _ => phases.0 != 0 && phases.1 == 0,
                }
            });
            Answer::Passed(passed, closed.map(|place| 1 << place).sum())
        }
        (Act::Panel(call), Answer::PanelChanged(changed)) => {
            let PanelAct::Line { projector, line } = &call.act else { unreachable!("no line") };
            let heard = panel::calls::heard(&call.panel, *projector, line, changed.number);
            Answer::PanelHeard(changed, Box::new(heard))
        }
        (_, alone) => alone,
    }
}

/// Whether the connection at the place is not closed, and was opened with that number.
fn is_session(device: &Device, place: usize, random: u32) -> bool {
    let connection = &device.connections[place];
    match made_now() {
        Some(Mistake::NumberNotCompared) => connection.phase != 0,
        _ => connection.phase != 0 && connection.random == random,
    }
}
