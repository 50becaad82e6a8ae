//! How calls and answers go to a process and back: every field in its order, numbers with their lowest byte first, a
//! `size_t` as eight bytes, a slice after its length. `host/host.c` is the other end.

use super::{Act, Answer, Day, Device, Flag, Lent, Lent2, PanelAct, PanelCall, Said};

pub trait Wire {
    fn put(&self, out: &mut Vec<u8>);
    fn get(from: &mut &[u8]) -> Self;
}

impl Wire for u8 {
    fn put(&self, out: &mut Vec<u8>) {
        out.push(*self);
    }

    fn get(from: &mut &[u8]) -> u8 {
        let (&first, rest) = from.split_first().expect("one more byte");
        *from = rest;
        first
    }
}

impl Wire for bool {
    fn put(&self, out: &mut Vec<u8>) {
        out.push(u8::from(*self));
    }

    fn get(from: &mut &[u8]) -> bool {
        u8::get(from) != 0
    }
}

impl Wire for Flag {
    fn put(&self, out: &mut Vec<u8>) {
        self.0.put(out);
    }

    fn get(from: &mut &[u8]) -> Flag {
        Flag(u8::get(from))
    }
}

impl Wire for u32 {
    fn put(&self, out: &mut Vec<u8>) {
        out.extend_from_slice(&self.to_le_bytes());
    }

    fn get(from: &mut &[u8]) -> u32 {
        u32::from_le_bytes(<[u8; 4]>::get(from))
    }
}

impl Wire for usize {
    fn put(&self, out: &mut Vec<u8>) {
        out.extend_from_slice(&(*self as u64).to_le_bytes());
    }

    fn get(from: &mut &[u8]) -> usize {
        u64::from_le_bytes(<[u8; 8]>::get(from)) as usize
    }
}

impl Wire for i64 {
    fn put(&self, out: &mut Vec<u8>) {
        out.extend_from_slice(&self.to_le_bytes());
    }

    fn get(from: &mut &[u8]) -> i64 {
        i64::from_le_bytes(<[u8; 8]>::get(from))
    }
}

impl<T: Wire, const N: usize> Wire for [T; N] {
    fn put(&self, out: &mut Vec<u8>) {
        self.iter().for_each(|item| item.put(out));
    }

    fn get(from: &mut &[u8]) -> [T; N] {
        std::array::from_fn(|_| T::get(from))
    }
}

impl<T: Wire> Wire for Vec<T> {
    fn put(&self, out: &mut Vec<u8>) {
        self.len().put(out);
        self.iter().for_each(|item| item.put(out));
    }

    fn get(from: &mut &[u8]) -> Vec<T> {
        let length = usize::get(from);
        (0..length).map(|_| T::get(from)).collect()
    }
}

/// The call's number, then what it is lent; before all of it stand whether it is made in place, and the record, wanted
/// or not.
pub fn put_act(act: &Act, out: &mut Vec<u8>) {
    match act {
        Act::SetUp(lent) => {
            0u8.put(out);
            put_settings(lent, out);
        }
        Act::SetUp2(lent) => {
            25u8.put(out);
            put_settings_2(lent, out);
        }
        Act::WhichSetting(lent) => {
            16u8.put(out);
            put_settings(lent, out);
        }
        Act::WhichSetting2(lent) => {
            26u8.put(out);
            put_settings_2(lent, out);
        }
        Act::Open { random, lent } => {
            1u8.put(out);
            random.put(out);
            lent.put(out);
        }
        Act::Close { place } => {
            2u8.put(out);
            place.put(out);
        }
        Act::Receive { place, bytes, lent } => {
            3u8.put(out);
            place.put(out);
            bytes.put(out);
            lent.put(out);
        }
        Act::HandOn { .. } | Act::Interleave { .. } | Act::Keep { .. } => unreachable!("not one call"),
        Act::Pass { seconds } => {
            4u8.put(out);
            seconds.put(out);
        }
        Act::PassInPlace { seconds } => {
            5u8.put(out);
            seconds.put(out);
        }
        Act::SetFault { mark } => {
            6u8.put(out);
            mark.put(out);
        }
        Act::SetErrors { digits } => {
            7u8.put(out);
            digits.put(out);
        }
        Act::SetMark { lamp, enabled } => {
            24u8.put(out);
            lamp.put(out);
            enabled.put(out);
        }
        Act::Legal => 8u8.put(out),
        Act::Store { lent } => {
            17u8.put(out);
            lent.put(out);
        }
        Act::Load { bytes } => {
            18u8.put(out);
            bytes.put(out);
        }
        Act::Digest { message } => {
            9u8.put(out);
            message.put(out);
        }
        Act::Write { command, secured, random, password, lent } => {
            10u8.put(out);
            command.put(out);
            secured.put(out);
            random.put(out);
            password.put(out);
            lent.put(out);
        }
        Act::ReadGreeting { line } => {
            11u8.put(out);
            line.put(out);
        }
        Act::ReadReply { command, line } => {
            12u8.put(out);
            command.put(out);
            line.put(out);
        }
        Act::Panel(call) => put_panel_call(call, out),
        Act::CompareLamps { earlier, later, lent } => {
            13u8.put(out);
            earlier.put(out);
            later.put(out);
            lent.put(out);
        }
        Act::CheckDay { day, rigs } => {
            14u8.put(out);
            put_day(day, out);
            rigs.put(out);
        }
        Act::PlanDay { day, lent } => {
            15u8.put(out);
            put_day(day, out);
            lent.put(out);
        }
        Act::LogBegun { form } => {
            27u8.put(out);
            form.put(out);
        }
        Act::Record { log, said, lent } => {
            28u8.put(out);
            log.put(out);
            put_said(said, out);
            lent.put(out);
        }
        Act::Play { log, line, lent } => {
            29u8.put(out);
            log.put(out);
            line.put(out);
            lent.put(out);
        }
    }
}

/// What a line is to say after its own number.
fn put_said(said: &Said, out: &mut Vec<u8>) {
    let number: u8 = match said {
        Said::File { .. } => 0,
        Said::Opened { .. } => 1,
        Said::Received { .. } => 2,
        Said::Passed { .. } => 3,
        Said::Closed { .. } => 4,
        Said::Fault { .. } => 5,
        Said::Errors { .. } => 6,
        Said::Mark { .. } => 7,
        Said::Stated => 8,
    };
    number.put(out);
    match said {
        Said::File { time } => time.put(out),
        Said::Opened { place, random } => {
            place.put(out);
            random.put(out);
        }
        Said::Received { place, bytes } => {
            place.put(out);
            bytes.put(out);
        }
        Said::Passed { seconds } => seconds.put(out),
        Said::Closed { place } => place.put(out),
        Said::Fault { mark } => mark.put(out),
        Said::Errors { digits } => digits.put(out),
        Said::Mark { lamp, enabled } => {
            lamp.put(out);
            enabled.put(out);
        }
        Said::Stated => (),
    }
}

fn put_settings(lent: &Lent, out: &mut Vec<u8>) {
    for text in [&lent.name, &lent.maker, &lent.model, &lent.other, &lent.password, &lent.inputs] {
        text.put(out);
    }
    lent.lamps.put(out);
    lent.warm.put(out);
    lent.cool.put(out);
}

fn put_settings_2(lent: &Lent2, out: &mut Vec<u8>) {
    put_settings(&lent.lent, out);
    for text in [&lent.serial, &lent.version, &lent.names] {
        text.put(out);
    }
    lent.name_lengths.put(out);
}

/// The panel stands after the call's number; of none, nothing does.
fn put_panel_call(call: &PanelCall, out: &mut Vec<u8>) {
    let number: u8 = match call.act {
        PanelAct::None => return 19u8.put(out),
        PanelAct::Add { .. } => 20,
        PanelAct::Command { .. } => 21,
        PanelAct::Line { .. } => 22,
        PanelAct::Lost { .. } => 23,
    };
    number.put(out);
    call.panel.put(out);
    match &call.act {
        PanelAct::None => (),
        PanelAct::Add { password } => password.put(out),
        PanelAct::Command { projector, command, lent } => {
            projector.put(out);
            command.put(out);
            lent.put(out);
        }
        PanelAct::Line { projector, line } => {
            projector.put(out);
            line.put(out);
        }
        PanelAct::Lost { projector } => projector.put(out),
    }
}

fn put_day(day: &Day, out: &mut Vec<u8>) {
    day.starts.put(out);
    day.lengths.put(out);
    day.allowed.put(out);
    day.warm.put(out);
    day.cool.put(out);
    day.life.put(out);
}

/// The answer to this call.
pub fn get_answer(act: &Act, from: &mut &[u8]) -> Answer {
    match act {
        Act::SetUp(_)
        | Act::SetUp2(_)
        | Act::Close { .. }
        | Act::Pass { .. }
        | Act::PassInPlace { .. }
        | Act::SetFault { .. }
        | Act::SetErrors { .. }
        | Act::SetMark { .. }
        | Act::Load { .. } => Answer::Changed(Wire::get(from)),
        Act::WhichSetting(_) | Act::WhichSetting2(_) => Answer::Setting(Wire::get(from)),
        Act::Open { .. } => Answer::Opened(Wire::get(from), Wire::get(from)),
        Act::Receive { .. } => Answer::Received(Wire::get(from), Wire::get(from)),
        Act::HandOn { .. } | Act::Interleave { .. } | Act::Keep { .. } => unreachable!("not one call"),
        Act::Legal => Answer::Legal(Wire::get(from)),
        Act::Digest { .. } => Answer::Digest(Wire::get(from)),
        Act::Store { .. } | Act::Write { .. } => Answer::Written(Wire::get(from), Wire::get(from)),
        Act::ReadGreeting { .. } => Answer::Greeting(Wire::get(from)),
        Act::ReadReply { .. } => Answer::Reading(Wire::get(from)),
        Act::Panel(call) if matches!(call.act, PanelAct::Command { .. }) => {
            Answer::PanelSent(Box::new(Wire::get(from)), Wire::get(from))
        }
        Act::Panel(_) => Answer::PanelChanged(Box::new(Wire::get(from))),
        Act::CompareLamps { .. } => Answer::Compared(Wire::get(from), Wire::get(from)),
        Act::CheckDay { .. } => Answer::Verdict(Wire::get(from)),
        Act::PlanDay { .. } => Answer::Plan(Wire::get(from), Wire::get(from)),
        Act::LogBegun { .. } => Answer::Begun(Wire::get(from)),
        Act::Record { .. } => Answer::Recorded(Wire::get(from), Wire::get(from), Wire::get(from)),
        Act::Play { .. } => {
            let device = Box::new(Device::get(from));
            Answer::Played(device, Wire::get(from), Wire::get(from), Wire::get(from))
        }
    }
}
