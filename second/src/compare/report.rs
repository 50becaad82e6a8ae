//! A difference, said so that one can follow it by hand: the calls up to it, and the fields on which the two disagree.

use super::{Case, Made, tally};
use crate::face::fields::{Fields, quoted};
use crate::face::{Act, Answer, Device, Lent2, Log, Panel, PanelAct, PanelCall, Part, Said};
use std::fmt;

pub struct Difference {
    pub case: Case,
    /// The call that gives different answers, how it is made, and the record that it is lent.
    pub place: usize,
    pub made: Made,
    pub device: Device,
    pub expected: Answer,
    pub given: Answer,
}

impl fmt::Display for Difference {
    fn fmt(&self, f: &mut fmt::Formatter) -> fmt::Result {
        writeln!(f, "the two programs differ at call {} of {}:", self.place + 1, self.case.acts.len())?;
        if *self.case.start != Device::BLANK {
            writeln!(f, "  from the record {}", record(&*self.case.start, &Device::BLANK))?;
        }
        for act in &self.case.acts[..self.place] {
            writeln!(f, "  {}", call(act))?;
        }
        let act = &self.case.acts[self.place];
        match self.made {
            Made::ByValue => writeln!(f, "  {}", call(act))?,
            Made::InPlace => writeln!(f, "  {}", in_place(&call(act)))?,
            Made::Named => writeln!(f, "  {}, by {}", call(act), tally::call_named(act))?,
        }
        if self.place > 0 || self.device != *self.case.start {
            writeln!(f, "  which is lent the record {}", record(&self.device, &Device::BLANK))?;
        }
        let (expected, given) = match &self.given {
            Answer::Touched(left) => (Answer::Touched(Box::new(self.device)), Answer::Touched(left.clone())),
            given => (self.expected.clone(), given.clone()),
        };
        for ((field, expected), (_, given)) in expected.fields().iter().zip(given.fields()) {
            if *expected != given {
                writeln!(f, "  {field}: by the rules {expected}, from libboard.a {given}")?;
            }
        }
        Ok(())
    }
}

/// The call named as the one in place is.
fn in_place(call: &str) -> String {
    match call.split_once('(') {
        Some((name, rest)) if name.starts_with("pj_") => format!("{name}_in_place({rest}"),
        _ => call.replacen("pj_receive", "pj_receive_in_place", 1),
    }
}

/// The fields of a record that are not zero.
fn record<T: Fields>(record: &T, zero: &T) -> String {
    let fields = record.fields().into_iter().zip(zero.fields()).filter(|(field, zero)| field != zero);
    let said: Vec<String> = fields.map(|((name, value), _)| format!("{name} = {value}")).collect();
    if said.is_empty() { "of zeros".to_string() } else { said.join(", ") }
}

fn memory(lent: &[u8]) -> String {
    format!("memory of {} bytes", lent.len())
}

fn call(act: &Act) -> String {
    match act {
        Act::SetUp(lent) | Act::WhichSetting(lent) => {
            let name = if matches!(act, Act::SetUp(_)) { "pj_set_up" } else { "pj_which_setting" };
            let texts = [&lent.name, &lent.maker, &lent.model, &lent.other, &lent.password, &lent.inputs];
            let texts: Vec<String> = texts.iter().map(|text| quoted(text)).collect();
            format!("{name}({}, lamps {:?}, warm {}, cool {})", texts.join(", "), lent.lamps, lent.warm, lent.cool)
        }
        Act::SetUp2(lent) | Act::WhichSetting2(lent) => {
            let name = if matches!(act, Act::SetUp2(_)) { "pj_set_up_2(" } else { "pj_which_setting_2(" };
            let Lent2 { lent, serial, version, names, name_lengths } = &**lent;
            let texts = [serial, version, names].map(|text| quoted(text)).join(", ");
            let first = call(&Act::SetUp(lent.clone())).replacen("pj_set_up(", name, 1);
            format!("{}, {texts}, lengths {name_lengths:?})", first.trim_end_matches(')'))
        }
        Act::Open { random, lent } => format!("pj_open({random:#010x}, {})", memory(lent)),
        Act::Close { place } => format!("pj_close({place})"),
        Act::Receive { place, bytes, lent } => format!("pj_receive({place}, {}, {})", quoted(bytes), memory(lent)),
        Act::HandOn { place, bytes, cuts } => {
            format!("the stream {} handed to pj_receive at place {place} in the cuts {cuts:?}", quoted(bytes))
        }
        Act::Interleave { parts } => {
            let parts: Vec<String> = parts.iter().map(|(place, bytes)| format!("{place} {}", quoted(bytes))).collect();
            format!("parts of streams handed to pj_receive, each at its place: {}", parts.join(", "))
        }
        Act::Pass { seconds } | Act::PassInPlace { seconds } => format!("pj_pass({seconds})"),
        Act::SetFault { mark } => format!("pj_set_fault({mark})"),
        Act::SetErrors { digits } => format!("pj_set_errors({digits:?})"),
        Act::SetMark { lamp, enabled } => format!("pj_set_mark({lamp}, {enabled})"),
        Act::Legal => "pj_legal()".to_string(),
        Act::Store { lent } => format!("pj_store({})", memory(lent)),
        Act::Load { bytes } => format!("pj_load({})", quoted(bytes)),
        Act::Digest { message } => format!("pj_md5({})", quoted(message)),
        Act::Write { command: c, secured, random, password, lent } => format!(
            "pj_write(code {} {} {}, secured {secured}, {random:#010x}, {}, {})",
            c.code,
            c.first,
            c.second,
            quoted(password),
            memory(lent)
        ),
        Act::ReadGreeting { line } => format!("pj_read_greeting({})", quoted(line)),
        Act::ReadReply { command: c, line } => {
            format!("pj_read_reply(code {} {} {}, {})", c.code, c.first, c.second, quoted(line))
        }
        Act::Panel(call) => panel_call(call),
        Act::CompareLamps { earlier, later, lent } => {
            format!("pj_compare_lamps({earlier:?}, {later:?}, {} places)", lent.len())
        }
        Act::CheckDay { day, rigs } => format!("pj_check_day({day:?}, rigs {rigs:?})"),
        Act::PlanDay { day, lent } => format!("pj_plan_day({day:?}, {})", memory(lent)),
        Act::LogBegun { form } => format!("pj_log_begun({})", quoted(form)),
        Act::Record { log, said, lent } => format!("{}{}, {})", said_call(said), log_of(log), memory(lent)),
        Act::Play { log, line, lent } => format!("pj_log_play({}, {}, {})", log_of(log), quoted(line), memory(lent)),
        Act::Keep { form, parts } => {
            let form = form.as_ref().map_or("its stored form".to_string(), |form| format!("the form {}", quoted(form)));
            let parts: Vec<String> = parts.iter().map(part).collect();
            format!("a log kept from {form} on, and played again: {}", parts.join("; "))
        }
    }
}

fn log_of(log: &Log) -> String {
    format!("file {} lines {} sum {:08x}", log.file, log.lines, log.sum)
}

fn said_call(said: &Said) -> String {
    match said {
        Said::File { time } => format!("pj_log_file({}, ", quoted(time)),
        Said::Opened { place, random } => format!("pj_log_opened({place}, {random:#010x}, "),
        Said::Received { place, bytes } => format!("pj_log_received({place}, {}, ", quoted(bytes)),
        Said::Passed { seconds } => format!("pj_log_passed({seconds}, "),
        Said::Closed { place } => format!("pj_log_closed({place}, "),
        Said::Fault { mark } => format!("pj_log_fault({mark}, "),
        Said::Errors { digits } => format!("pj_log_errors({digits:?}, "),
        Said::Mark { lamp, enabled } => format!("pj_log_mark({lamp}, {enabled}, "),
        Said::Stated => "pj_log_stated(".to_string(),
    }
}

fn part(part: &Part) -> String {
    match part {
        Part::Call(act) => call(act),
        Part::File(time) => format!("a file begun at {}", quoted(time)),
        Part::State => "stated".to_string(),
    }
}

fn panel_call(call: &PanelCall) -> String {
    let said = match &call.act {
        PanelAct::None => return "pj_panel_none()".to_string(),
        PanelAct::Add { password } => format!("pj_panel_add({})", quoted(password)),
        PanelAct::Command { projector, command: c, lent } => {
            format!("pj_panel_command({projector}, code {} {} {}, {})", c.code, c.first, c.second, memory(lent))
        }
        PanelAct::Line { projector, line } => format!("pj_panel_line({projector}, {})", quoted(line)),
        PanelAct::Lost { projector } => format!("pj_panel_lost({projector})"),
    };
    format!("{said}, lent the panel {}", record(&call.panel, &Panel::NONE))
}
