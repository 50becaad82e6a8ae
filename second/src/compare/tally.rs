//! What a run met: how often each call gave each number, and each kind of reply or reading. A comparison that only ever
//! saw refusals would say nothing.

use super::Made;
use crate::face::{Act, Answer, PLACES, Panel, PanelAct, PanelCall, Said};
use std::collections::BTreeMap;
use std::fmt;

#[derive(Default)]
pub struct Tally(BTreeMap<(&'static str, String), usize>);

impl Tally {
    pub fn count(&mut self, made: Made, act: &Act, answer: &Answer) {
        if made == Made::InPlace {
            *self.0.entry((call_in_place(act), kind(act, answer))).or_default() += 1;
            return;
        }
        if made == Made::Named {
            *self.0.entry((call_named(act), kind(act, answer))).or_default() += 1;
            return;
        }
        *self.0.entry((call(act), kind(act, answer))).or_default() += 1;
        if let Some((call, place)) = place(act, answer) {
            let said = if place < PLACES { place.to_string() } else { "none".to_string() };
            *self.0.entry((call, said)).or_default() += 1;
        }
    }

    pub fn times(&self, call: &str, kind: &str) -> usize {
        self.0.iter().filter(|((c, k), _)| *c == call && k == kind).map(|(_, times)| times).sum()
    }
}

impl fmt::Display for Tally {
    fn fmt(&self, f: &mut fmt::Formatter) -> fmt::Result {
        let mut last = "";
        for ((call, kind), times) in &self.0 {
            if *call != last {
                write!(f, "{}{call}:", if last.is_empty() { "" } else { "\n" })?;
            } else {
                write!(f, ",")?;
            }
            write!(f, " {kind} {times}")?;
            last = call;
        }
        Ok(())
    }
}

pub fn call(act: &Act) -> &'static str {
    match act {
        Act::SetUp(_) => "pj_set_up",
        Act::SetUp2(_) => "pj_set_up_2",
        Act::WhichSetting(_) => "pj_which_setting",
        Act::WhichSetting2(_) => "pj_which_setting_2",
        Act::Open { .. } => "pj_open",
        Act::Close { .. } => "pj_close",
        Act::Receive { .. } => "pj_receive",
        Act::HandOn { .. } => "streams in cuts",
        Act::Interleave { .. } => "streams at four places",
        Act::Pass { .. } | Act::PassInPlace { .. } => "pj_pass",
        Act::SetFault { .. } => "pj_set_fault",
        Act::SetErrors { .. } => "pj_set_errors",
        Act::SetMark { .. } => "pj_set_mark",
        Act::Legal => "pj_legal",
        Act::Store { .. } => "pj_store",
        Act::Load { .. } => "pj_load",
        Act::Digest { .. } => "pj_md5",
        Act::Write { .. } => "pj_write",
        Act::ReadGreeting { .. } => "pj_read_greeting",
        Act::ReadReply { .. } => "pj_read_reply",
        Act::Panel(call) => match call.act {
            PanelAct::None => "pj_panel_none",
            PanelAct::Add { .. } => "pj_panel_add",
            PanelAct::Command { .. } => "pj_panel_command",
            PanelAct::Line { .. } => "pj_panel_line",
            PanelAct::Lost { .. } => "pj_panel_lost",
        },
        Act::CompareLamps { .. } => "pj_compare_lamps",
        Act::CheckDay { .. } => "pj_check_day",
        Act::PlanDay { .. } => "pj_plan_day",
        Act::LogBegun { .. } => "pj_log_begun",
        Act::Record { said, .. } => match said {
            Said::File { .. } => "pj_log_file",
            Said::Opened { .. } => "pj_log_opened",
            Said::Received { .. } => "pj_log_received",
            Said::Passed { .. } => "pj_log_passed",
            Said::Closed { .. } => "pj_log_closed",
            Said::Fault { .. } => "pj_log_fault",
            Said::Errors { .. } => "pj_log_errors",
            Said::Mark { .. } => "pj_log_mark",
            Said::Stated => "pj_log_stated",
        },
        Act::Play { .. } => "pj_log_play",
        Act::Keep { .. } => "logs kept and played",
    }
}

fn call_in_place(act: &Act) -> &'static str {
    match act {
        Act::SetUp(_) => "pj_set_up_in_place",
        Act::SetUp2(_) => "pj_set_up_2_in_place",
        Act::Open { .. } => "pj_open_in_place",
        Act::Close { .. } => "pj_close_in_place",
        Act::Receive { .. } => "pj_receive_in_place",
        Act::HandOn { .. } => "streams in cuts, in place",
        Act::Interleave { .. } => "streams at four places, in place",
        Act::Pass { .. } | Act::PassInPlace { .. } => "pj_pass_in_place",
        Act::SetFault { .. } => "pj_set_fault_in_place",
        Act::SetErrors { .. } => "pj_set_errors_in_place",
        Act::SetMark { .. } => "pj_set_mark_in_place",
        Act::Legal => "pj_legal_in_place",
        Act::Store { .. } => "pj_store_in_place",
        Act::Load { .. } => "pj_load_in_place",
        Act::Panel(call) => match call.act {
            PanelAct::None => "pj_panel_none_in_place",
            PanelAct::Add { .. } => "pj_panel_add_in_place",
            PanelAct::Command { .. } => "pj_panel_command_in_place",
            PanelAct::Line { .. } => "pj_panel_line_in_place",
            PanelAct::Lost { .. } => "pj_panel_lost_in_place",
        },
        _ => unreachable!("not made in place"),
    }
}

pub fn call_named(act: &Act) -> &'static str {
    match act {
        Act::Close { .. } => "pj_close_session_in_place",
        Act::Receive { .. } => "pj_receive_session_in_place",
        Act::Pass { .. } | Act::PassInPlace { .. } => "pj_pass_telling_in_place",
        Act::Panel(_) => "pj_panel_hear_in_place",
        _ => unreachable!("in no session"),
    }
}

/// The place of a call, where it names one or tells of one.
fn place(act: &Act, answer: &Answer) -> Option<(&'static str, usize)> {
    match (act, answer) {
        (Act::Close { place }, _) => Some(("place that pj_close names", *place)),
        (Act::Receive { place, .. }, _) => Some(("place that pj_receive names", *place)),
        (_, Answer::Opened(opened, _)) if opened.number == 0 => Some(("place that pj_open tells", opened.place)),
        _ => None,
    }
}

/// A refusal's number; else what the reply or the reading is.
fn kind(act: &Act, answer: &Answer) -> String {
    match answer {
        Answer::Changed(changed) | Answer::HandedOn(changed, _) => refusal_or(changed.number, "served"),
        Answer::Passed(passed, closed) => refusal_or(passed.number, &closed.to_string()),
        Answer::Interleaved(..) => "served".to_string(),
        Answer::Setting(place) => format!("setting {place}"),
        Answer::Opened(opened, out) => refusal_or(opened.number, &reply(&out[..opened.length])),
        Answer::Received(received, out) => refusal_or(received.number, &reply(&out[..received.length])),
        Answer::Legal(legal) => legal.to_string(),
        Answer::Digest(_) => "digest".to_string(),
        Answer::Written(stored, _) if matches!(act, Act::Store { .. }) => refusal_or(stored.number, "served"),
        Answer::Written(written, _) => refusal_or(written.number, &format!("{} bytes", written.length)),
        Answer::Greeting(greeting) => refusal_or(greeting.number, &format!("kind {}", greeting.kind)),
        Answer::Reading(reading) => refusal_or(reading.number, &format!("kind {}", reading.kind)),
        Answer::PanelChanged(changed) if changed.number == 0 => panel_kind(act, &changed.panel).to_string(),
        Answer::PanelChanged(changed) => refusal_or(changed.number, ""),
        Answer::PanelSent(sent, _) => refusal_or(sent.number, if sent.length > LED { "led" } else { "not led" }),
        Answer::PanelHeard(_, heard) => refusal_or(heard.number, &format!("kind {}", heard.kind)),
        Answer::Compared(compared, _) => refusal_or(compared.number, if compared.backwards { "back" } else { "none" }),
        Answer::Verdict(verdict) => refusal_or(verdict.number, &format!("rule {}", verdict.rule)),
        Answer::Plan(plan, _) => refusal_or(plan.number, if plan.planned { "planned" } else { "unplanned" }),
        Answer::Begun(_) => "served".to_string(),
        Answer::Recorded(_, written, out) => refusal_or(written.number, first_of(out)),
        Answer::Played(_, _, written, out) => refusal_or(written.number, &reply(&out[..written.length])),
        Answer::Kept(kept) => refusal_or(kept.again.number, "served"),
        Answer::Touched(_) => "touched".to_string(),
    }
}

/// The letter of a recorded line.
fn first_of(line: &[u8]) -> &str {
    line.get(..1).and_then(|first| str::from_utf8(first).ok()).unwrap_or_default()
}

/// A line of at least so many bytes is led by a digest.
const LED: usize = 32;

/// What a line did: greeted, ended the command, told what is now shown, or was a stray, and when.
fn panel_kind(act: &Act, after: &Panel) -> &'static str {
    let Act::Panel(call) = act else { return "served" };
    let PanelCall { panel, act: PanelAct::Line { projector, .. } } = &**call else { return "served" };
    let (before, after) = (&panel.entries[*projector], &after.entries[*projector]);
    let readings = |entry: &crate::face::Entry| (entry.power, entry.input_type, entry.input_number, entry.hours);
    match (before.greeting, after.greeting) {
        _ if before == after => "not counted any more",
        (0, 0) => "before the greeting",
        (0, 1) => "PJLINK 0",
        (0, _) => "PJLINK 1",
        (_, 0) => "ERRA",
        _ if !before.under_way.is_raised() => "late",
        _ if after.under_way.is_raised() => "malformed or foreign",
        _ if readings(before) != readings(after) => "shown",
        _ => "ended",
    }
}

fn refusal_or(number: u32, served: &str) -> String {
    if number == 0 { served.to_string() } else { format!("!{number}") }
}

/// The greeting, `OK` or the refusal of a reply line; of another, the body that it answers. In Class 2 after its header.
fn reply(line: &[u8]) -> String {
    let text = String::from_utf8_lossy(line);
    let class = if line.starts_with(b"%2") { "%2" } else { "" };
    match text.trim_end_matches('\r').split_once('=') {
        _ if line.is_empty() => "none".to_string(),
        None => text.chars().take(8).collect(),
        Some((_, end @ ("OK" | "ERR1" | "ERR2" | "ERR3" | "ERR4"))) => format!("{class}{end}"),
        Some((head, _)) => format!("{class}{}", head[2..].to_uppercase()),
    }
}
