//! The calls on a record that is lent, linked: `linked` has those by value, and what makes each call safe.

use super::{Act, Answer, Changed, Device, Opened, Opening, Passing, Received, Receiving, Written};
use super::{setting_up, workroom};

unsafe extern "C" {
    fn pj_load_in_place(device: *mut Device, bytes: *const u8, length: usize) -> u32;
    fn pj_store_in_place(device: *const Device, out: *mut u8, out_length: usize) -> Written;
    fn pj_legal_in_place(device: *const Device) -> bool;
    fn pj_open_in_place(device: *mut Device, random: u32, out: *mut u8, out_length: usize) -> Opening;
    fn pj_close_in_place(device: *mut Device, place: usize) -> u32;
    fn pj_receive_in_place(
        device: *mut Device,
        place: usize,
        bytes: *const u8,
        length: usize,
        out: *mut u8,
        out_length: usize,
    ) -> Receiving;
    fn pj_pass_in_place(device: *mut Device, seconds: u32) -> u32;
    fn pj_receive_session_in_place(
        device: *mut Device,
        place: usize,
        random: u32,
        bytes: *const u8,
        length: usize,
        out: *mut u8,
        out_length: usize,
    ) -> Receiving;
    fn pj_close_session_in_place(device: *mut Device, place: usize, random: u32) -> u32;
    fn pj_pass_telling_in_place(device: *mut Device, seconds: u32) -> Passing;
    fn pj_set_fault_in_place(device: *mut Device, mark: bool) -> u32;
    fn pj_set_errors_in_place(device: *mut Device, digits: *const u8, length: usize) -> u32;
    fn pj_set_mark_in_place(device: *mut Device, lamp: usize, enabled: bool) -> u32;
}

// SAFETY, for every call below: as in `linked`; the record that a call changes is lent as `&mut` and overlaps nothing else.

pub fn load(device: &mut Device, bytes: &[u8]) -> u32 {
    unsafe { pj_load_in_place(device, bytes.as_ptr(), bytes.len()) }
}

pub fn store(device: &Device, out: &mut [u8]) -> Written {
    unsafe { pj_store_in_place(device, out.as_mut_ptr(), out.len()) }
}

pub fn legal(device: &Device) -> bool {
    unsafe { pj_legal_in_place(device) }
}

pub fn open(device: &mut Device, random: u32, out: &mut [u8]) -> Opening {
    unsafe { pj_open_in_place(device, random, out.as_mut_ptr(), out.len()) }
}

pub fn close(device: &mut Device, place: usize) -> u32 {
    unsafe { pj_close_in_place(device, place) }
}

pub fn receive(device: &mut Device, place: usize, bytes: &[u8], out: &mut [u8]) -> Receiving {
    unsafe { pj_receive_in_place(device, place, bytes.as_ptr(), bytes.len(), out.as_mut_ptr(), out.len()) }
}

pub fn pass(device: &mut Device, seconds: u32) -> u32 {
    unsafe { pj_pass_in_place(device, seconds) }
}

pub fn set_fault(device: &mut Device, mark: bool) -> u32 {
    unsafe { pj_set_fault_in_place(device, mark) }
}

pub fn set_errors(device: &mut Device, digits: &[u8]) -> u32 {
    unsafe { pj_set_errors_in_place(device, digits.as_ptr(), digits.len()) }
}

pub fn set_mark(device: &mut Device, lamp: usize, enabled: bool) -> u32 {
    unsafe { pj_set_mark_in_place(device, lamp, enabled) }
}

/// The call made on a record that holds this one, and the record that lies there afterwards.
pub fn answer(lent: &Device, act: &Act) -> Answer {
    let mut device = *lent;
    let number = match act {
        Act::SetUp(lent) => setting_up::set_up_in_place(&mut device, lent),
        Act::SetUp2(lent) => setting_up::set_up_2_in_place(&mut device, lent),
        Act::Load { bytes } => load(&mut device, bytes),
        Act::Open { random, lent } => {
            let mut out = lent.clone();
            let Opening { number, length, place } = open(&mut device, *random, &mut out);
            return Answer::Opened(Opened { number, length, place, device }, out);
        }
        Act::Close { place } => close(&mut device, *place),
        Act::Receive { place, bytes, lent } => {
            let mut out = lent.clone();
            let Receiving { number, taken, length } = receive(&mut device, *place, bytes, &mut out);
            return Answer::Received(Received { number, taken, length, device }, out);
        }
        Act::Pass { seconds } | Act::PassInPlace { seconds } => pass(&mut device, *seconds),
        Act::SetFault { mark } => set_fault(&mut device, *mark),
        Act::SetErrors { digits } => set_errors(&mut device, digits),
        Act::SetMark { lamp, enabled } => set_mark(&mut device, *lamp, *enabled),
        Act::Legal | Act::Store { .. } => return only_read(lent, device, act),
        Act::Panel(call) => return workroom::answer_in_place(call),
        _ => unreachable!("not made in place"),
    };
    Answer::Changed(Changed { number, device })
}

/// The call on a record that holds this one, in the session of that random number.
pub fn named(lent: &Device, random: u32, act: &Act) -> Answer {
    let mut device = *lent;
    match act {
        Act::Close { place } => {
            let number = unsafe { pj_close_session_in_place(&mut device, *place, random) };
            Answer::Changed(Changed { number, device })
        }
        Act::Receive { place, bytes, lent } => {
            let mut out = lent.clone();
            let (bytes_at, out_at) = (bytes.as_ptr(), out.as_mut_ptr());
            let (length, out_length) = (bytes.len(), out.len());
            let Receiving { number, taken, length } = unsafe {
                pj_receive_session_in_place(&mut device, *place, random, bytes_at, length, out_at, out_length)
            };
            Answer::Received(Received { number, taken, length, device }, out)
        }
        Act::Pass { seconds } | Act::PassInPlace { seconds } => {
            let Passing { number, closed } = unsafe { pj_pass_telling_in_place(&mut device, *seconds) };
            Answer::Passed(Changed { number, device }, closed)
        }
        Act::Panel(call) => workroom::heard(call),
        _ => unreachable!("in no session"),
    }
}

/// The two calls that leave the record as it was. It lies in room that may be written, or one that wrote there would not
/// be seen to.
fn only_read(lent: &Device, mut device: Device, act: &Act) -> Answer {
    let device = std::hint::black_box(&mut device);
    let answer = match act {
        Act::Store { lent } => {
            let mut out = lent.clone();
            Answer::Written(store(device, &mut out), out)
        }
        _ => Answer::Legal(legal(device)),
    };
    if std::hint::black_box(&*device) == lent { answer } else { Answer::Touched(Box::new(*device)) }
}
