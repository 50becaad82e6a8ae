//! The archive, linked. A slice is a pointer and a length, in that order.

use super::{
    Act, Answer, Changed, Command, Compared, Device, Digest, Greeting, Opened, Reading, Received, Side, Written,
};
use super::{days, in_place, logs, setting_up, swap, workroom};

#[link(name = "board", kind = "static")]
unsafe extern "C" {
    fn pj_open(device: Device, random: u32, out: *mut u8, out_length: usize) -> Opened;
    fn pj_close(device: Device, place: usize) -> Changed;
    fn pj_receive(
        device: Device,
        place: usize,
        bytes: *const u8,
        length: usize,
        out: *mut u8,
        out_length: usize,
    ) -> Received;
    fn pj_pass(device: Device, seconds: u32) -> Changed;
    fn pj_set_fault(device: Device, mark: bool) -> Changed;
    fn pj_set_errors(device: Device, digits: *const u8, length: usize) -> Changed;
    fn pj_set_mark(device: Device, lamp: usize, enabled: bool) -> Changed;
    fn pj_legal(device: Device) -> bool;
    fn pj_md5(bytes: *const u8, length: usize) -> Digest;
    fn pj_write(
        command: Command,
        secured: bool,
        random: u32,
        password: *const u8,
        password_length: usize,
        out: *mut u8,
        out_length: usize,
    ) -> Written;
    fn pj_read_greeting(line: *const u8, length: usize) -> Greeting;
    fn pj_read_reply(command: Command, line: *const u8, length: usize) -> Reading;
    fn pj_compare_lamps(
        earlier: *const u32,
        earlier_length: usize,
        later: *const u32,
        later_length: usize,
        out: *mut i64,
        out_length: usize,
    ) -> Compared;
}

// SAFETY, for every call below: the pointers are those of live slices with their own lengths, what is written into is
// lent as `&mut`, and the archive's functions ask for nothing more.

pub fn open(device: Device, random: u32, out: &mut [u8]) -> Opened {
    unsafe { pj_open(device, random, out.as_mut_ptr(), out.len()) }
}

pub fn close(device: Device, place: usize) -> Changed {
    unsafe { pj_close(device, place) }
}

pub fn receive(device: Device, place: usize, bytes: &[u8], out: &mut [u8]) -> Received {
    unsafe { pj_receive(device, place, bytes.as_ptr(), bytes.len(), out.as_mut_ptr(), out.len()) }
}

pub fn pass(device: Device, seconds: u32) -> Changed {
    unsafe { pj_pass(device, seconds) }
}

pub fn set_fault(device: Device, mark: bool) -> Changed {
    unsafe { pj_set_fault(device, mark) }
}

pub fn set_errors(device: Device, digits: &[u8]) -> Changed {
    unsafe { pj_set_errors(device, digits.as_ptr(), digits.len()) }
}

pub fn set_mark(device: Device, lamp: usize, enabled: bool) -> Changed {
    unsafe { pj_set_mark(device, lamp, enabled) }
}

pub fn legal(device: Device) -> bool {
    unsafe { pj_legal(device) }
}

pub fn digest(message: &[u8]) -> Digest {
    unsafe { pj_md5(message.as_ptr(), message.len()) }
}

pub fn write(command: Command, secured: bool, random: u32, password: &[u8], out: &mut [u8]) -> Written {
    unsafe { pj_write(command, secured, random, password.as_ptr(), password.len(), out.as_mut_ptr(), out.len()) }
}

pub fn read_greeting(line: &[u8]) -> Greeting {
    unsafe { pj_read_greeting(line.as_ptr(), line.len()) }
}

pub fn read_reply(command: Command, line: &[u8]) -> Reading {
    unsafe { pj_read_reply(command, line.as_ptr(), line.len()) }
}

pub fn compare_lamps(earlier: &[u32], later: &[u32], out: &mut [i64]) -> Compared {
    let ([earlier_at, later_at], out_at) = ([earlier, later].map(<[u32]>::as_ptr), out.as_mut_ptr());
    unsafe { pj_compare_lamps(earlier_at, earlier.len(), later_at, later.len(), out_at, out.len()) }
}

pub struct Board;

impl Board {
    pub fn start() -> Board {
        Board
    }
}

impl Side for Board {
    fn cuts(&self) -> bool {
        true
    }

    fn call_in_place(&mut self, device: &Device, act: &Act) -> Answer {
        in_place::answer(device, act)
    }

    fn call_named(&mut self, device: &Device, random: u32, act: &Act) -> Option<Answer> {
        Some(in_place::named(device, random, act))
    }

    fn call(&mut self, device: &Device, act: &Act) -> Answer {
        let device = *device;
        match act {
            Act::SetUp(lent) => Answer::Changed(setting_up::set_up(lent)),
            Act::SetUp2(lent) => Answer::Changed(setting_up::set_up_2(lent)),
            Act::WhichSetting(lent) => Answer::Setting(setting_up::which_setting(lent)),
            Act::WhichSetting2(lent) => Answer::Setting(setting_up::which_setting_2(lent)),
            Act::Open { random, lent } => {
                let mut out = lent.clone();
                Answer::Opened(open(device, *random, &mut out), out)
            }
            Act::Close { place } => Answer::Changed(close(device, *place)),
            Act::Receive { place, bytes, lent } => {
                let mut out = lent.clone();
                Answer::Received(receive(device, *place, bytes, &mut out), out)
            }
            Act::Pass { seconds } | Act::PassInPlace { seconds } => Answer::Changed(pass(device, *seconds)),
            Act::SetFault { mark } => Answer::Changed(set_fault(device, *mark)),
            Act::SetErrors { digits } => Answer::Changed(set_errors(device, digits)),
            Act::SetMark { lamp, enabled } => Answer::Changed(set_mark(device, *lamp, *enabled)),
            Act::Legal => Answer::Legal(legal(device)),
            Act::Store { lent } => {
                let mut out = lent.clone();
                Answer::Written(swap::store(device, &mut out), out)
            }
            Act::Load { bytes } => Answer::Changed(swap::load(bytes)),
            Act::Digest { message } => Answer::Digest(digest(message)),
            Act::Write { command, secured, random, password, lent } => {
                let mut out = lent.clone();
                Answer::Written(write(*command, *secured, *random, password, &mut out), out)
            }
            Act::HandOn { .. } | Act::Interleave { .. } | Act::Keep { .. } => unreachable!("not one call"),
            Act::ReadGreeting { line } => Answer::Greeting(read_greeting(line)),
            Act::ReadReply { command, line } => Answer::Reading(read_reply(*command, line)),
            Act::Panel(call) => workroom::answer(call),
            Act::CompareLamps { earlier, later, lent } => {
                let mut out = lent.clone();
                Answer::Compared(compare_lamps(earlier, later, &mut out), out)
            }
            Act::CheckDay { day, rigs } => Answer::Verdict(days::check_day(day, rigs)),
            Act::PlanDay { day, lent } => {
                let mut out = lent.clone();
                Answer::Plan(days::plan_day(day, &mut out), out)
            }
            Act::LogBegun { form } => logs::begun(form),
            Act::Record { log, said, lent } => logs::record(&device, log, said, lent),
            Act::Play { log, line, lent } => logs::play(&device, log, line, lent),
        }
    }
}
