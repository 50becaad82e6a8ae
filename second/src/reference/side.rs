//! The reference program as one of the two that are compared.

use super::{calls, days, in_place, marks, panel, recorded, service, swap};
use crate::face::{Act, Answer, Device, PanelAct, PanelCall, Side};

pub struct Second;

impl Side for Second {
    fn cuts(&self) -> bool {
        false
    }

    fn call_in_place(&mut self, device: &Device, act: &Act) -> Answer {
        let by_value = self.call(device, act);
        in_place::mistaken(device, act, &by_value).unwrap_or(by_value)
    }

    fn call_named(&mut self, device: &Device, random: u32, act: &Act) -> Option<Answer> {
        Some(super::sessions::named(device, random, act, self.call(device, act)))
    }

    fn call(&mut self, device: &Device, act: &Act) -> Answer {
        match act {
            Act::SetUp(lent) => Answer::Changed(calls::set_up(lent)),
            Act::SetUp2(lent) => Answer::Changed(calls::set_up_2(lent)),
            Act::WhichSetting(lent) => Answer::Setting(calls::which_setting(lent)),
            Act::WhichSetting2(lent) => Answer::Setting(calls::which_setting_2(lent)),
            Act::Open { random, lent } => {
                let mut out = lent.clone();
                Answer::Opened(calls::open(device, *random, &mut out), out)
            }
            Act::Close { place } => Answer::Changed(calls::close(device, *place)),
            Act::Receive { place, bytes, lent } => {
                let mut out = lent.clone();
                Answer::Received(calls::receive(device, *place, bytes, &mut out), out)
            }
            Act::Pass { seconds } | Act::PassInPlace { seconds } => Answer::Changed(calls::pass(device, *seconds)),
            Act::SetFault { mark } => Answer::Changed(calls::set_fault(device, *mark)),
            Act::SetErrors { digits } => Answer::Changed(calls::set_errors(device, digits)),
            Act::SetMark { lamp, enabled } => Answer::Changed(marks::set_mark(device, *lamp, *enabled)),
            Act::Legal => Answer::Legal(calls::legal(device)),
            Act::Store { lent } => {
                let mut out = lent.clone();
                Answer::Written(swap::store(device, &mut out), out)
            }
            Act::Load { bytes } => Answer::Changed(swap::load(bytes)),
            Act::Digest { message } => Answer::Digest(calls::digest(message)),
            Act::Write { command, secured, random, password, lent } => {
                let mut out = lent.clone();
                Answer::Written(calls::write(*command, *secured, *random, password, &mut out), out)
            }
            Act::HandOn { .. } | Act::Interleave { .. } | Act::Keep { .. } => unreachable!("not one call"),
            Act::ReadGreeting { line } => Answer::Greeting(calls::read_greeting(line)),
            Act::ReadReply { command, line } => Answer::Reading(calls::read_reply(*command, line)),
            Act::Panel(call) => on_panel(call),
            Act::CompareLamps { earlier, later, lent } => {
                let mut out = lent.clone();
                Answer::Compared(service::compare_lamps(earlier, later, &mut out), out)
            }
            Act::CheckDay { day, rigs } => Answer::Verdict(days::check_day(day, rigs)),
            Act::PlanDay { day, lent } => {
                let mut out = lent.clone();
                Answer::Plan(days::plan_day(day, &mut out), out)
            }
            Act::LogBegun { form } => Answer::Begun(recorded::calls::begun(form)),
            Act::Record { log, said, lent } => {
                let mut out = lent.clone();
                let (written, log) = recorded::calls::record(log, device, said, &mut out);
                Answer::Recorded(log, written, out)
            }
            Act::Play { log, line, lent } => {
                let mut out = lent.clone();
                let (written, log, device) = recorded::calls::play(log, device, line, &mut out);
                Answer::Played(Box::new(device), log, written, out)
            }
        }
    }
}

fn on_panel(call: &PanelCall) -> Answer {
    let panel = &call.panel;
    let changed = match &call.act {
        PanelAct::None => panel::calls::none(),
        PanelAct::Add { password } => panel::calls::add(panel, password),
        PanelAct::Command { projector, command, lent } => {
            let mut out = lent.clone();
            let sent = panel::calls::command(panel, *projector, *command, &mut out);
            return Answer::PanelSent(Box::new(sent), out);
        }
        PanelAct::Line { projector, line } => panel::calls::line(panel, *projector, line),
        PanelAct::Lost { projector } => panel::calls::lost(panel, *projector),
    };
    Answer::PanelChanged(Box::new(changed))
}
