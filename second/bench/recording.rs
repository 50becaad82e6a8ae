//! Recording a board's history (RULES, History of a board): the line of each call, which is held against the call in
//! place that it is the line of, and one line played. Of a receive both are measured here, on the least record: the
//! recorder does not look at it, and the call takes the fewest instructions.

use crate::work::{By, PLACE, Run, Work, least, led_by_digest, receiving_in_place};
use second::face::{Device, Written};
use std::cell::RefCell;
use std::hint::black_box;

/// What a host keeps of a log (`pj_log`).
#[repr(C)]
#[derive(Clone, Copy)]
struct Log {
    file: u32,
    lines: u32,
    sum: u32,
}

unsafe extern "C" {
    fn pj_log_file(log: *mut Log, time: *const u8, length: usize, out: *mut u8, out_length: usize) -> Written;
    fn pj_log_opened(log: *mut Log, place: usize, random: u32, out: *mut u8, out_length: usize) -> Written;
    fn pj_log_received(
        log: *mut Log,
        place: usize,
        bytes: *const u8,
        length: usize,
        out: *mut u8,
        out_length: usize,
    ) -> Written;
    fn pj_log_passed(log: *mut Log, seconds: u32, out: *mut u8, out_length: usize) -> Written;
    fn pj_log_closed(log: *mut Log, place: usize, out: *mut u8, out_length: usize) -> Written;
    fn pj_log_fault(log: *mut Log, mark: bool, out: *mut u8, out_length: usize) -> Written;
    fn pj_log_errors(log: *mut Log, digits: *const u8, length: usize, out: *mut u8, out_length: usize) -> Written;
    fn pj_log_mark(log: *mut Log, lamp: usize, enabled: bool, out: *mut u8, out_length: usize) -> Written;
    fn pj_log_stated(log: *mut Log, device: *const Device, out: *mut u8, out_length: usize) -> Written;
    fn pj_log_play(
        log: *mut Log,
        device: *mut Device,
        line: *const u8,
        length: usize,
        reply: *mut u8,
        reply_length: usize,
    ) -> Written;
}

const ROOM: usize = 4097;
const BEGUN: Log = Log { file: 1, lines: 7, sum: 0x0a1b_2c3d };

pub fn all() -> Vec<Work> {
    let mut all = Vec::new();
    let mut add = |name, prepare: fn() -> Run| all.push(Work { name, sides: &[By::Board], prepare: Box::new(prepare) });
    // SAFETY, in all: what is lent lives as long as the call, with its own length.
    add("pj_log_file", || {
        recording(|log, out| unsafe { pj_log_file(log, TIME.as_ptr(), TIME.len(), out.as_mut_ptr(), out.len()) })
    });
    add("pj_log_opened", || {
        recording(|log, out| unsafe { pj_log_opened(log, PLACE, 0x498e_4a67, out.as_mut_ptr(), out.len()) })
    });
    add("pj_log_received, one byte", || receiving(b"%".to_vec()));
    add("pj_log_received, four bytes of a line", || receiving(b"%1PO".to_vec()));
    add("pj_log_received, whole query %1LAMP ?", || receiving(b"%1LAMP ?\r".to_vec()));
    add("pj_log_received, %1POWR 1", || receiving(b"%1POWR 1\r".to_vec()));
    add("pj_log_received, a line of 12 bytes", || receiving(line_of(12)));
    add("pj_log_received, a line of 28 bytes", || receiving(line_of(28)));
    add("pj_log_received, a line led by its digest", || receiving(led_by_digest()));
    add("pj_log_received, a line of 60 bytes", || receiving(line_of(60)));
    add("pj_log_received, a line of 136 bytes", || receiving(line_of(136)));
    add("pj_log_received, 9 bytes in hex", || receiving(vec![0; 9]));
    add("pj_log_received, 137 bytes in hex", || receiving(vec![0; 137]));
    add("pj_log_received, 2,046 bytes", || receiving(vec![0; 2046]));
    add("pj_receive_in_place, one byte, the least record", || handing(b"%".to_vec()));
    add("pj_receive_in_place, four bytes of a line, the least record", || handing(b"%1PO".to_vec()));
    add("pj_receive_in_place, whole query %1LAMP ?, the least record", || handing(b"%1LAMP ?\r".to_vec()));
    add("pj_receive_in_place, %1POWR 1, the least record", || handing(b"%1POWR 1\r".to_vec()));
    add("pj_receive_in_place, a line of 12 bytes, the least record", || handing(line_of(12)));
    add("pj_receive_in_place, a line of 28 bytes, the least record", || handing(line_of(28)));
    let name = "pj_receive_in_place, a line led by its digest, the least record";
    add(name, || receiving_in_place(least(b"panel123"), &led_by_digest()));
    add("pj_receive_in_place, a line of 60 bytes, the least record", || handing(line_of(60)));
    add("pj_receive_in_place, a line of 136 bytes, the least record", || handing(line_of(136)));
    add("pj_receive_in_place, 9 bytes of none, the least record", || handing(vec![0; 9]));
    add("pj_receive_in_place, 137 bytes of none, the least record", || handing(vec![0; 137]));
    add("pj_receive_in_place, 2,046 bytes of none, the least record", || handing(vec![0; 2046]));
    add("pj_log_passed, n = 1", || recording(|log, out| unsafe { pj_log_passed(log, 1, out.as_mut_ptr(), out.len()) }));
    add("pj_log_passed, n = 4,294,967,295", || {
        recording(|log, out| unsafe { pj_log_passed(log, u32::MAX, out.as_mut_ptr(), out.len()) })
    });
    add("pj_log_closed", || recording(|log, out| unsafe { pj_log_closed(log, PLACE, out.as_mut_ptr(), out.len()) }));
    add("pj_log_fault", || recording(|log, out| unsafe { pj_log_fault(log, true, out.as_mut_ptr(), out.len()) }));
    add("pj_log_errors", || {
        recording(|log, out| unsafe { pj_log_errors(log, DIGITS.as_ptr(), 6, out.as_mut_ptr(), out.len()) })
    });
    add("pj_log_mark", || recording(|log, out| unsafe { pj_log_mark(log, 1, false, out.as_mut_ptr(), out.len()) }));
    add("pj_log_stated, 8 lamps", stating);
    add("pj_log_play, R 0 %1LAMP ?, 8 lamps", playing);
    all
}

const TIME: &[u8] = b"2026-11-27T05:45:09Z";
const DIGITS: [u8; 6] = [0, 1, 2, 0, 0, 0];

/// A line of a log that goes on, into one memory.
fn recording(call: impl Fn(&mut Log, &mut [u8]) -> Written + 'static) -> Run {
    let place = RefCell::new((BEGUN, vec![0; ROOM]));
    Box::new(move |by| {
        let (log, out) = &mut *place.borrow_mut();
        let (log, out) = (black_box(log), black_box(out));
        if by != By::Nobody {
            black_box(&call(log, out));
        }
        *log = BEGUN;
    })
}

fn receiving(bytes: Vec<u8>) -> Run {
    recording(move |log, out| {
        let bytes = black_box(&bytes);
        unsafe { pj_log_received(log, PLACE, bytes.as_ptr(), bytes.len(), out.as_mut_ptr(), out.len()) }
    })
}

fn handing(bytes: Vec<u8>) -> Run {
    receiving_in_place(least(b""), &bytes)
}

/// A line of so many bytes, its CR included, that asks for nothing that there is.
fn line_of(length: usize) -> Vec<u8> {
    let mut line = b"%1NONE ".to_vec();
    line.resize(length - 1, b'?');
    line.push(b'\r');
    line
}

fn stating() -> Run {
    let device = crate::work::opened(b"");
    recording(move |log, out| {
        let device = black_box(&device);
        unsafe { pj_log_stated(log, device, out.as_mut_ptr(), out.len()) }
    })
}

fn playing() -> Run {
    let line = b"R 0 %1LAMP ?";
    let place = RefCell::new(crate::work::opened(b""));
    recording(move |log, out| {
        let (device, line) = (&mut *place.borrow_mut(), black_box(line));
        unsafe { pj_log_play(log, device, line.as_ptr(), line.len(), out.as_mut_ptr(), out.len()) }
    })
}
