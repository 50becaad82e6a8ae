//! The calls on a record that is lent. By the header each "refuses as its like by value, with the same number, and serves as
//! it does; the record changes where it lies. A call that is refused leaves it as it was, but for set-up and loading, which
//! fill it, and leave the blank record there". So there is no rule here: what they give is what those by value give, whose
//! record is then the one that lies there. The deliberate mistakes in these calls alone are here.

use super::calls;
use super::rules::{Mistake, made_now};
use crate::face::{Act, Answer, Connection, Device, Flag, PLACES, Panel, PanelAct};

/// What a mistake makes of a call in place on a record that holds this one, where the call by value gives that. None by
/// the rules, and where no mistake changes it.
pub fn mistaken(lent: &Device, act: &Act, by_value: &Answer) -> Option<Answer> {
    let mistake = made_now()?;
    let mut answer = by_value.clone();
    match (mistake, act, &mut answer) {
        (Mistake::RefusedIsBlankInPlace, _, answer) if !act.fills() => *refused(answer)? = Device::BLANK,
        (Mistake::SetUpKeptInPlace, Act::SetUp(_) | Act::SetUp2(_), answer) => *refused(answer)? = *lent,
        (Mistake::LoadKeptInPlace, Act::Load { .. }, answer) => *refused(answer)? = *lent,
        (Mistake::SetUpKeepsConnectionsInPlace, Act::SetUp(_) | Act::SetUp2(_), answer) => {
            served(answer)?.connections = lent.connections;
        }
        (Mistake::SetUpKeepsNamesInPlace, Act::SetUp(_), answer) => {
            served(answer)?.settings.names = lent.settings.names;
        }
        (Mistake::LoadKeepsOwnInPlace, Act::Load { .. }, answer) => served(answer)?.own = lent.own,
        (Mistake::PlaceNotToldInPlace, Act::Open { .. }, Answer::Opened(opened, _)) => opened.place = 0,
        (Mistake::GreetingNotWrittenInPlace, Act::Open { lent, .. }, Answer::Opened(_, out)) => out.clone_from(lent),
        (Mistake::OpenedIsLeftInPlace, Act::Open { .. }, Answer::Opened(opened, _)) => opened.device = *lent,
        (Mistake::ClosingClosesAllInPlace, Act::Close { .. }, answer) => {
            served(answer)?.connections = [Connection::CLOSED; PLACES];
        }
        (Mistake::ReceivedIsLeftInPlace, Act::Receive { .. }, Answer::Received(received, _)) => received.device = *lent,
        (Mistake::AllTakenInPlace, Act::Receive { bytes, .. }, Answer::Received(received, _))
            if received.number == 0 =>
        {
            received.taken = bytes.len();
        }
        (Mistake::ReplyNotWrittenInPlace, Act::Receive { lent, .. }, Answer::Received(_, out)) => out.clone_from(lent),
        (Mistake::PassedIsLeftInPlace, Act::Pass { .. } | Act::PassInPlace { .. }, answer) => *served(answer)? = *lent,
        (Mistake::NoneAgesInPlace, Act::Pass { .. } | Act::PassInPlace { .. }, answer) => {
            served(answer)?.connections = lent.connections;
        }
        (Mistake::PanelIsLeftInPlace, Act::Panel(call), answer) => *panel(answer, true)? = call.panel,
        (Mistake::RefusedIsNoneInPlace, Act::Panel(_), answer) => *panel(answer, false)? = Panel::NONE,
        (Mistake::LineNotWrittenInPlace, Act::Panel(call), Answer::PanelSent(_, out)) => {
            let PanelAct::Command { lent, .. } = &call.act else { return None };
            out.clone_from(lent);
        }
        (Mistake::FaultStaysInPlace, Act::SetFault { .. }, answer) => {
            let fault = &mut served(answer)?.own.fault;
            *fault = Flag::from(fault.is_raised() || lent.own.fault.is_raised());
        }
        (Mistake::WorseDigitsInPlace, Act::SetErrors { .. }, answer) => {
            let errors = &mut served(answer)?.own.errors;
            errors.iter_mut().zip(lent.own.errors).for_each(|(digit, before)| *digit = before.max(*digit));
        }
        (Mistake::MarkOfAnotherInPlace, Act::SetMark { lamp, enabled }, answer) => {
            let device = served(answer)?;
            let next = (lamp + 1) % device.settings.lamp_count;
            device.own.enabled = lent.own.enabled;
            device.own.enabled[next] = Flag::from(*enabled);
        }
        (Mistake::NoPlaceTestedInPlace, Act::Legal, Answer::Legal(legal)) => {
            *legal = calls::legal(&Device { connections: [Connection::CLOSED; PLACES], ..*lent });
        }
        (Mistake::FormNotWrittenInPlace, Act::Store { lent }, Answer::Written(_, out)) => out.clone_from(lent),
        _ => return None,
    }
    Some(answer)
}

/// The panel of a call that is served, or refused.
fn panel(answer: &mut Answer, is_served: bool) -> Option<&mut Panel> {
    let (number, panel) = match answer {
        Answer::PanelChanged(changed) => (changed.number, &mut changed.panel),
        Answer::PanelSent(sent, _) => (sent.number, &mut sent.panel),
        _ => return None,
    };
    ((number == 0) == is_served).then_some(panel)
}

/// The record of a call that is refused.
fn refused(answer: &mut Answer) -> Option<&mut Device> {
    record(answer, |number| number != 0)
}

/// The record of a call that is served.
fn served(answer: &mut Answer) -> Option<&mut Device> {
    record(answer, |number| number == 0)
}

fn record(answer: &mut Answer, is_meant: impl Fn(u32) -> bool) -> Option<&mut Device> {
    let (number, device) = match answer {
        Answer::Changed(changed) => (changed.number, &mut changed.device),
        Answer::Opened(opened, _) => (opened.number, &mut opened.device),
        Answer::Received(received, _) => (received.number, &mut received.device),
        _ => return None,
    };
    is_meant(number).then_some(device)
}
