//! The calls on a panel, linked: `linked` has the others, and what makes each call safe.

use super::{Answer, Command, Entry, Heard, Panel, PanelAct, PanelCall, PanelChanged, PanelSent, Written};

unsafe extern "C" {
    fn pj_panel_none() -> PanelChanged;
    fn pj_panel_add(panel: Panel, password: *const u8, password_length: usize) -> PanelChanged;
    fn pj_panel_command(panel: Panel, projector: usize, command: Command, out: *mut u8, out_length: usize)
    -> PanelSent;
    fn pj_panel_line(panel: Panel, projector: usize, line: *const u8, length: usize) -> PanelChanged;
    fn pj_panel_lost(panel: Panel, projector: usize) -> PanelChanged;
    fn pj_panel_none_in_place(panel: *mut Panel) -> u32;
    fn pj_panel_add_in_place(panel: *mut Panel, password: *const u8, password_length: usize) -> u32;
    fn pj_panel_command_in_place(
        panel: *mut Panel,
        projector: usize,
        command: Command,
        out: *mut u8,
        out_length: usize,
    ) -> Written;
    fn pj_panel_line_in_place(panel: *mut Panel, projector: usize, line: *const u8, length: usize) -> u32;
    fn pj_panel_hear_in_place(panel: *mut Panel, projector: usize, line: *const u8, length: usize) -> Heard;
    fn pj_panel_lost_in_place(panel: *mut Panel, projector: usize) -> u32;
}

pub fn answer(call: &PanelCall) -> Answer {
    let panel = call.panel;
    let changed = match &call.act {
        PanelAct::None => unsafe { pj_panel_none() },
        PanelAct::Add { password } => unsafe { pj_panel_add(panel, password.as_ptr(), password.len()) },
        PanelAct::Command { projector, command, lent } => {
            let mut out = lent.clone();
            let sent = unsafe { pj_panel_command(panel, *projector, *command, out.as_mut_ptr(), out.len()) };
            return Answer::PanelSent(Box::new(sent), out);
        }
        PanelAct::Line { projector, line } => unsafe { pj_panel_line(panel, *projector, line.as_ptr(), line.len()) },
        PanelAct::Lost { projector } => unsafe { pj_panel_lost(panel, *projector) },
    };
    Answer::PanelChanged(Box::new(changed))
}

/// The call made on a panel that holds this one, and the panel that lies there afterwards. The one that fills a panel
/// finds another there.
pub fn answer_in_place(call: &PanelCall) -> Answer {
    let mut panel = call.panel;
    let number = match &call.act {
        PanelAct::None => {
            panel = Panel::of(&[Entry { strays: 7, ..Entry::NONE }; 8]);
            unsafe { pj_panel_none_in_place(&mut panel) }
        }
        PanelAct::Add { password } => unsafe { pj_panel_add_in_place(&mut panel, password.as_ptr(), password.len()) },
        PanelAct::Command { projector, command, lent } => {
            let mut out = lent.clone();
            let (out_at, out_length) = (out.as_mut_ptr(), out.len());
            let Written { number, length } =
                unsafe { pj_panel_command_in_place(&mut panel, *projector, *command, out_at, out_length) };
            return Answer::PanelSent(Box::new(PanelSent { number, length, panel }), out);
        }
        PanelAct::Line { projector, line } => unsafe {
            pj_panel_line_in_place(&mut panel, *projector, line.as_ptr(), line.len())
        },
        PanelAct::Lost { projector } => unsafe { pj_panel_lost_in_place(&mut panel, *projector) },
    };
    Answer::PanelChanged(Box::new(PanelChanged { number, panel }))
}

/// A line that comes, by the call that tells what it was.
pub fn heard(call: &PanelCall) -> Answer {
    let PanelAct::Line { projector, line } = &call.act else { unreachable!("no line") };
    let mut panel = call.panel;
    let heard = unsafe { pj_panel_hear_in_place(&mut panel, *projector, line.as_ptr(), line.len()) };
    Answer::PanelHeard(Box::new(PanelChanged { number: heard.number, panel }), Box::new(heard))
}
