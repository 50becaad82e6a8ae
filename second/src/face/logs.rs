//! The calls on a recorded log, linked: `linked` has the others, and what makes each call safe.

use super::{Answer, Device, Log, Said, Written};

unsafe extern "C" {
    fn pj_log_begun(form: *const u8, length: usize) -> Log;
    fn pj_log_file(log: *mut Log, time: *const u8, length: usize, out: *mut u8, out_length: usize) -> Written;
    fn pj_log_opened(log: *mut Log, place: usize, random: u32, out: *mut u8, out_length: usize) -> Written;
    fn pj_log_received(
        log: *mut Log,
        place: usize,
        bytes: *const u8,
        length: usize,
        out: *mut u8,
        out_length: usize,
    ) -> Written;
    fn pj_log_passed(log: *mut Log, seconds: u32, out: *mut u8, out_length: usize) -> Written;
    fn pj_log_closed(log: *mut Log, place: usize, out: *mut u8, out_length: usize) -> Written;
    fn pj_log_fault(log: *mut Log, mark: bool, out: *mut u8, out_length: usize) -> Written;
    fn pj_log_errors(log: *mut Log, digits: *const u8, count: usize, out: *mut u8, out_length: usize) -> Written;
    fn pj_log_mark(log: *mut Log, lamp: usize, enabled: bool, out: *mut u8, out_length: usize) -> Written;
    fn pj_log_stated(log: *mut Log, device: *const Device, out: *mut u8, out_length: usize) -> Written;
    fn pj_log_play(
        log: *mut Log,
        device: *mut Device,
        line: *const u8,
        length: usize,
        out: *mut u8,
        out_length: usize,
    ) -> Written;
}

// SAFETY, for every call below: as in `in_place`.

pub fn begun(form: &[u8]) -> Answer {
    Answer::Begun(unsafe { pj_log_begun(form.as_ptr(), form.len()) })
}

/// The record lies in room that may be written, or a call that wrote there would not be seen to.
pub fn record(lent: &Device, log: &Log, said: &Said, lent_memory: &[u8]) -> Answer {
    let (mut device, mut log, mut memory) = (*lent, *log, lent_memory.to_vec());
    let device = std::hint::black_box(&mut device);
    let (out, out_length) = (memory.as_mut_ptr(), memory.len());
    let written = unsafe {
        match said {
            Said::File { time } => pj_log_file(&mut log, time.as_ptr(), time.len(), out, out_length),
            Said::Opened { place, random } => pj_log_opened(&mut log, *place, *random, out, out_length),
            Said::Received { place, bytes } => {
                pj_log_received(&mut log, *place, bytes.as_ptr(), bytes.len(), out, out_length)
            }
            Said::Passed { seconds } => pj_log_passed(&mut log, *seconds, out, out_length),
            Said::Closed { place } => pj_log_closed(&mut log, *place, out, out_length),
            Said::Fault { mark } => pj_log_fault(&mut log, *mark, out, out_length),
            Said::Errors { digits } => pj_log_errors(&mut log, digits.as_ptr(), digits.len(), out, out_length),
            Said::Mark { lamp, enabled } => pj_log_mark(&mut log, *lamp, *enabled, out, out_length),
            Said::Stated => pj_log_stated(&mut log, &raw const *device, out, out_length),
        }
    };
    if std::hint::black_box(&*device) == lent {
        Answer::Recorded(log, written, memory)
    } else {
        Answer::Touched(Box::new(*device))
    }
}

pub fn play(lent: &Device, log: &Log, line: &[u8], lent_memory: &[u8]) -> Answer {
    let (mut device, mut log, mut memory) = (Box::new(*lent), *log, lent_memory.to_vec());
    let written =
        unsafe { pj_log_play(&mut log, &mut *device, line.as_ptr(), line.len(), memory.as_mut_ptr(), memory.len()) };
    Answer::Played(device, log, written, memory)
}
