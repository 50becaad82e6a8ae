//! What is measured: each piece of work, done by the archive, by the reference program and, for MD5, by plain C and
//! OpenSSL.

use second::face::{Changed, Command, Connection, Device, Lent, Lent2, Receiving, in_place, linked, setting_up, swap};
use second::reference::{calls, marks, places, service, swap as reference_swap};
use std::cell::RefCell;
use std::hint::black_box;

#[derive(Clone, Copy, PartialEq, Eq, Debug)]
pub enum By {
    /// No call is made; all else that a run does is done.
    Nobody,
    Board,
    Second,
    PlainC,
    OpenSsl,
}

pub type Run = Box<dyn Fn(By)>;

/// A piece of work under its name, and who does it, the archive first. `prepare` makes what it works on, and gives what
/// is then measured.
pub struct Work {
    pub name: &'static str,
    pub sides: &'static [By],
    pub prepare: Box<dyn Fn() -> Run>,
}

pub const BOTH: &[By] = &[By::Board, By::Second];
const DIGESTS: &[By] = if cfg!(openssl) {
    &[By::Board, By::Second, By::PlainC, By::OpenSsl]
} else {
    &[By::Board, By::Second, By::PlainC]
};

unsafe extern "C" {
    fn plain_md5(message: *const u8, length: usize, digest: *mut u8);
    #[cfg(openssl)]
    fn MD5(message: *const u8, length: usize, digest: *mut u8) -> *mut u8;
}

const LARGE: usize = 64 << 20;

/// Where the controller is that is measured. Where a work's name says nothing else, nobody is at the other three
/// places, so that it can be held against an archive from before there were four.
pub const PLACE: usize = 0;

pub fn all() -> Vec<Work> {
    let mut all = Vec::new();
    let mut add = |name, sides, prepare: Box<dyn Fn() -> Run>| all.push(Work { name, sides, prepare });
    add("MD5 of 40 bytes", DIGESTS, Box::new(|| digest(40)));
    add("MD5 of 4,096 bytes", DIGESTS, Box::new(|| digest(4096)));
    add("MD5 of 64 MB", DIGESTS, Box::new(|| digest(LARGE)));
    add("pj_receive, whole query %1LAMP ?, 8 lamps", BOTH, Box::new(|| receiving(opened(b""), b"%1LAMP ?\r")));
    add("pj_receive, whole query %1NAME ?, 64 bytes", BOTH, Box::new(|| receiving(opened(b""), b"%1NAME ?\r")));
    add("pj_receive, a line led by its digest", BOTH, Box::new(|| receiving(opened(b"panel123"), &led_by_digest())));
    add("pj_receive, one byte", BOTH, Box::new(|| receiving(opened(b""), b"%")));
    add("pj_receive, one byte, short texts", BOTH, Box::new(|| receiving(short(), b"%")));
    add("pj_receive, one byte, four lines full", BOTH, Box::new(|| receiving(full(134), b"%")));
    add("pj_receive, %1LAMP ?, others' lines full", BOTH, Box::new(|| receiving(full(0), b"%1LAMP ?\r")));
    add("pj_receive, 4,096 bytes of lines, handed on", BOTH, Box::new(|| handing_on(opened(b""))));
    add("pj_receive, one byte, Class 2", BOTH, Box::new(|| receiving(class_2(), b"%")));
    add("pj_receive, %2INNM ?6A, 128 bytes, Class 2", BOTH, Box::new(|| receiving(class_2(), b"%2INNM ?6A\r")));
    let name = "pj_receive_in_place, whole query %1LAMP ?, 8 lamps";
    add(name, BOTH, Box::new(|| receiving_in_place(opened(b""), b"%1LAMP ?\r")));
    let name = "pj_receive_in_place, whole query %1NAME ?, 64 bytes";
    add(name, BOTH, Box::new(|| receiving_in_place(opened(b""), b"%1NAME ?\r")));
    let name = "pj_receive_in_place, a line led by its digest";
    add(name, BOTH, Box::new(|| receiving_in_place(opened(b"panel123"), &led_by_digest())));
    add("pj_receive_in_place, one byte", BOTH, Box::new(|| receiving_in_place(opened(b""), b"%")));
    add("pj_receive_in_place, one byte, four lines full", BOTH, Box::new(|| receiving_in_place(full(134), b"%")));
    let name = "pj_receive_in_place, 4,096 bytes of lines, handed on";
    add(name, BOTH, Box::new(|| handing_on_in_place(opened(b""))));
    add("pj_receive_in_place, one byte, Class 2", BOTH, Box::new(|| receiving_in_place(class_2(), b"%")));
    let name = "pj_receive_in_place, %2INNM ?6A, 128 bytes, Class 2";
    add(name, BOTH, Box::new(|| receiving_in_place(class_2(), b"%2INNM ?6A\r")));
    add("pj_open, secured", BOTH, Box::new(|| opening(closed(b"panel123"))));
    add("pj_open_in_place, secured", BOTH, Box::new(|| opening_in_place(closed(b"panel123"))));
    add("pj_close", BOTH, Box::new(|| closing(opened(b""))));
    add("pj_close_in_place", BOTH, Box::new(|| closing_in_place(opened(b""))));
    add("pj_set_fault_in_place", BOTH, Box::new(|| marking_in_place(opened(b""))));
    add("pj_set_errors_in_place", BOTH, Box::new(|| reporting_in_place(opened(b""))));
    add("pj_set_mark_in_place", BOTH, Box::new(|| enabling_in_place(opened(b""))));
    add("pj_set_up", BOTH, Box::new(setting_up));
    add("pj_set_up_in_place", BOTH, Box::new(setting_up_in_place));
    add("pj_store, Class 2", BOTH, Box::new(|| storing(class_2())));
    add("pj_store_in_place, Class 2", BOTH, Box::new(|| storing_in_place(class_2())));
    add("pj_load, Class 2", BOTH, Box::new(|| loading(class_2())));
    add("pj_load_in_place, Class 2", BOTH, Box::new(|| loading_in_place(class_2())));
    add("pj_pass, n = 1", BOTH, Box::new(|| passing(warming(), 1)));
    add("pj_pass, n = 1, short texts", BOTH, Box::new(|| passing(short(), 1)));
    add("pj_pass, n = 1, four lines full", BOTH, Box::new(|| passing(full(135), 1)));
    add("pj_pass, n = 1, Class 2", BOTH, Box::new(|| passing(class_2(), 1)));
    add("pj_pass, n = 4,294,967,295", BOTH, Box::new(|| passing(warming(), u32::MAX)));
    add("pj_pass_in_place, n = 1", BOTH, Box::new(|| passing_in_place(warming())));
    add("pj_pass_in_place, n = 1, four lines full", BOTH, Box::new(|| passing_in_place(full(135))));
    add("pj_pass_in_place, n = 1, Class 2", BOTH, Box::new(|| passing_in_place(class_2())));
    add("pj_legal", BOTH, Box::new(|| legality(opened(b""))));
    add("pj_legal, four lines full", BOTH, Box::new(|| legality(full(135))));
    add("pj_legal, short texts", BOTH, Box::new(|| legality(short())));
    add("pj_legal, Class 2", BOTH, Box::new(|| legality(class_2())));
    add("pj_legal, a name of 21 Japanese characters", BOTH, Box::new(|| legality(japanese())));
    add("pj_legal_in_place", BOTH, Box::new(|| legality_in_place(opened(b""))));
    add("pj_legal_in_place, Class 2", BOTH, Box::new(|| legality_in_place(class_2())));
    add("the record, copied by a host", &[By::Board], Box::new(|| copying(class_2())));
    add("pj_read_reply, longest LAMP", BOTH, Box::new(|| reading(7, "LAMP", &["99999 1"; 8].join(" "))));
    add("pj_read_reply, longest INST", BOTH, Box::new(|| reading(8, "INST", &["59"; 32].join(" "))));
    add("pj_read_reply, longest NAME", BOTH, Box::new(|| reading(9, "NAME", &"n".repeat(64))));
    add("pj_read_reply, longest INNM", BOTH, Box::new(|| reading(20, "INNM", &"n".repeat(128))));
    add("pj_compare_lamps, 64 places", BOTH, Box::new(comparing));
    all
}

/// A set-up as a workroom has it, opened: texts of 7 to 13 bytes, three inputs, two lamps.
fn short() -> Device {
    made(Lent {
        name: b"Table 3".to_vec(),
        maker: b"Mannuvizhan".to_vec(),
        model: b"ceiling".to_vec(),
        other: b"second floor".to_vec(),
        password: Vec::new(),
        inputs: b"113251".to_vec(),
        lamps: vec![3_600; 2],
        warm: 20,
        cool: 60,
    })
}

/// The least that is set up and opened: no texts, one input, one lamp. No call takes fewer instructions.
pub fn least(password: &[u8]) -> Device {
    made(Lent {
        name: Vec::new(),
        maker: Vec::new(),
        model: Vec::new(),
        other: Vec::new(),
        password: password.to_vec(),
        inputs: b"11".to_vec(),
        lamps: vec![0],
        warm: 20,
        cool: 60,
    })
}

/// The same at its limits, with a name of three bytes a character.
fn japanese() -> Device {
    let mut device = opened(b"");
    let name = "\u{53F0}".repeat(21);
    device.settings.name.bytes[..63].copy_from_slice(name.as_bytes());
    device.settings.name.bytes[63] = 0;
    device.settings.name.len = 63;
    device
}

/// A set-up at its limits, opened: every text and list as long as it may be, so that legality has the most to look at.
pub fn opened(password: &[u8]) -> Device {
    made(longest(password))
}

/// The same before anybody has connected.
fn closed(password: &[u8]) -> Device {
    calls::set_up(&longest(password)).device
}

fn longest(password: &[u8]) -> Lent {
    Lent {
        name: vec![b'n'; 64],
        maker: vec![b'm'; 32],
        model: vec![b'o'; 32],
        other: vec![b'i'; 32],
        password: password.to_vec(),
        inputs: (b'1'..=b'4').flat_map(|kind| (b'1'..=b'8').flat_map(move |number| [kind, number])).collect(),
        lamps: vec![359_000_000; 8],
        warm: 600,
        cool: 600,
    }
}

/// The same in Class 2: every input of type 6 or with a letter, and every name as long as it may be.
pub fn class_2() -> Device {
    let lent = Lent2 {
        lent: Lent {
            name: vec![b'n'; 64],
            maker: vec![b'm'; 32],
            model: vec![b'o'; 32],
            other: vec![b'i'; 32],
            password: Vec::new(),
            inputs: (b'A'..=b'Z').chain(b'1'..=b'6').flat_map(|number| [b'6', number]).collect(),
            lamps: vec![359_000_000; 8],
            warm: 600,
            cool: 600,
        },
        serial: vec![b's'; 32],
        version: vec![b'v'; 32],
        names: vec![b'n'; 32 * 128],
        name_lengths: vec![128; 32],
    };
    connected(calls::set_up_2(&lent))
}

fn made(lent: Lent) -> Device {
    connected(calls::set_up(&lent))
}

fn connected(fresh: Changed) -> Device {
    assert_eq!(fresh.number, 0);
    calls::open(&fresh.device, 0x498e_4a67, &mut [0; 136]).device
}

/// At its limits with every place taken: so many bytes held at the place that is measured, which is open, and at the
/// others, which await their digest, as many as there may be.
fn full(held: usize) -> Device {
    let mut device = opened(b"");
    let place = device.connections[PLACE];
    for connection in &mut device.connections {
        *connection = place;
        connection.phase = 1;
        connection.line.held = 167;
        connection.line.bytes.fill(b'a');
    }
    let mut line = place.line;
    line.held = held;
    line.bytes[..held].fill(b'%');
    device.connections[PLACE] = Connection { line, ..place };
    assert!(calls::legal(&device));
    device
}

/// Everything moves: warm-up with 600 seconds left, and an awaiting connection.
fn warming() -> Device {
    let mut device = opened(b"panel123");
    device.own.power = 3;
    device.own.left = 600;
    device
}

pub fn led_by_digest() -> Vec<u8> {
    let mut line = second::reference::connection::leading_digest(0x498e_4a67, b"panel123").to_vec();
    line.extend_from_slice(b"%1POWR ?\r");
    line
}

fn digest(length: usize) -> Run {
    let message: Vec<u8> = (0..length).map(|place| (place * 31 + place / 999) as u8).collect();
    Box::new(move |by| {
        let message = black_box(&message);
        let mut bytes = [0; 16];
        match by {
            By::Board => bytes = linked::digest(message).bytes,
            By::Second => bytes = calls::digest(message).bytes,
            // SAFETY, here and below: a live slice with its own length, and the sixteen bytes that are written.
            By::PlainC => unsafe { plain_md5(message.as_ptr(), message.len(), bytes.as_mut_ptr()) },
            #[cfg(openssl)]
            By::OpenSsl => _ = unsafe { MD5(message.as_ptr(), message.len(), bytes.as_mut_ptr()) },
            _ => {}
        }
        black_box(bytes);
    })
}

// By value the caller passes a copy of the record, as the calling convention has it, and gets another, which it would
// still have to put in the place of the first. Below, `_` is the reference program.

fn receiving(device: Device, bytes: &[u8]) -> Run {
    let bytes = bytes.to_vec();
    Box::new(move |by| {
        let (device, bytes, mut out) = (black_box(&device), black_box(&bytes), [0; 136]);
        let out = black_box(&mut out);
        black_box(&match by {
            By::Nobody => return,
            By::Board => linked::receive(*device, PLACE, bytes, out),
            _ => calls::receive(device, PLACE, bytes, out),
        });
    })
}

/// Queries one after another.
fn stream() -> Vec<u8> {
    b"%1POWR ?\r%1INPT ?\r%1LAMP ?\r".iter().copied().cycle().take(4096).collect()
}

/// A stream, handed on until all is taken.
fn handing_on(device: Device) -> Run {
    let stream = stream();
    Box::new(move |by| {
        let mut device = *black_box(&device);
        let mut rest = black_box(&stream).as_slice();
        while !rest.is_empty() && by != By::Nobody {
            let mut out = [0; 136];
            let received = match by {
                By::Board => linked::receive(device, PLACE, rest, &mut out),
                _ => calls::receive(&device, PLACE, rest, &mut out),
            };
            device = received.device;
            rest = &rest[received.taken..];
            black_box(&out);
        }
        black_box(&device);
    })
}

/// A call on one record, which is lent to it. What a call changes of a record, all but the settings, is put back after
/// it, by nobody's runs too, so that each call finds the same record.
fn lent(device: Device, call: impl Fn(By, &mut Device) + 'static) -> Run {
    let place = RefCell::new(device);
    Box::new(move |by| {
        let mut place = place.borrow_mut();
        let lent = black_box(&mut *place);
        if by != By::Nobody {
            call(by, lent);
        }
        lent.own = device.own;
        lent.connections = device.connections;
    })
}

pub fn receiving_in_place(device: Device, bytes: &[u8]) -> Run {
    let bytes = bytes.to_vec();
    lent(device, move |by, device| {
        let mut out = [0; 136];
        black_box(&received_in_place(by, device, black_box(&bytes), &mut out));
        black_box(&out);
    })
}

pub fn received_in_place(by: By, device: &mut Device, bytes: &[u8], out: &mut [u8]) -> Receiving {
    match by {
        By::Board => in_place::receive(device, PLACE, bytes, out),
        _ => {
            let received = calls::receive(device, PLACE, bytes, out);
            *device = received.device;
            Receiving { number: received.number, taken: received.taken, length: received.length }
        }
    }
}

fn handing_on_in_place(device: Device) -> Run {
    let stream = stream();
    lent(device, move |by, device| {
        let mut rest = black_box(&stream).as_slice();
        while !rest.is_empty() {
            let mut out = [0; 136];
            let received = received_in_place(by, device, rest, &mut out);
            rest = &rest[received.taken..];
            black_box(&out);
        }
    })
}

const RANDOM: u32 = 0x498e_4a67;

fn opening(device: Device) -> Run {
    Box::new(move |by| {
        let (device, mut out) = (black_box(&device), [0; 136]);
        let out = black_box(&mut out);
        black_box(&match by {
            By::Nobody => return,
            By::Board => linked::open(*device, RANDOM, out),
            _ => calls::open(device, RANDOM, out),
        });
    })
}

fn opening_in_place(device: Device) -> Run {
    lent(device, |by, device| {
        let mut out = [0; 136];
        match by {
            By::Board => _ = black_box(in_place::open(device, RANDOM, &mut out)),
            _ => *device = calls::open(device, RANDOM, &mut out).device,
        }
        black_box(&out);
    })
}

fn closing(device: Device) -> Run {
    Box::new(move |by| {
        let device = black_box(&device);
        black_box(&match by {
            By::Nobody => return,
            By::Board => linked::close(*device, PLACE),
            _ => places::close(device, PLACE),
        });
    })
}

fn closing_in_place(device: Device) -> Run {
    lent(device, |by, device| match by {
        By::Board => _ = black_box(in_place::close(device, PLACE)),
        _ => *device = places::close(device, PLACE).device,
    })
}

fn marking_in_place(device: Device) -> Run {
    lent(device, |by, device| match by {
        By::Board => _ = black_box(in_place::set_fault(device, true)),
        _ => *device = calls::set_fault(device, true).device,
    })
}

fn reporting_in_place(device: Device) -> Run {
    let digits = [0, 1, 2, 0, 0, 0];
    lent(device, move |by, device| match by {
        By::Board => _ = black_box(in_place::set_errors(device, &digits)),
        _ => *device = calls::set_errors(device, &digits).device,
    })
}

fn enabling_in_place(device: Device) -> Run {
    lent(device, |by, device| match by {
        By::Board => _ = black_box(in_place::set_mark(device, 1, false)),
        _ => *device = marks::set_mark(device, 1, false).device,
    })
}

fn setting_up() -> Run {
    let lent = longest(b"panel123");
    Box::new(move |by| {
        let lent = black_box(&lent);
        black_box(&match by {
            By::Nobody => return,
            By::Board => setting_up::set_up(lent),
            _ => calls::set_up(lent),
        });
    })
}

/// Into one record, which is full from the last time.
fn setting_up_in_place() -> Run {
    let settings = longest(b"panel123");
    lent(class_2(), move |by, device| {
        let settings = black_box(&settings);
        match by {
            By::Board => _ = black_box(setting_up::set_up_in_place(device, settings)),
            _ => *device = calls::set_up(settings).device,
        }
    })
}

fn storing(device: Device) -> Run {
    Box::new(move |by| {
        let (device, mut out) = (black_box(&device), [0; FORM]);
        let out = black_box(&mut out);
        black_box(&match by {
            By::Nobody => return,
            By::Board => swap::store(*device, out),
            _ => reference_swap::store(device, out),
        });
    })
}

fn storing_in_place(device: Device) -> Run {
    Box::new(move |by| {
        let (device, mut out) = (black_box(&device), [0; FORM]);
        let out = black_box(&mut out);
        black_box(&match by {
            By::Nobody => return,
            By::Board => in_place::store(device, out),
            _ => reference_swap::store(device, out),
        });
    })
}

/// The longest stored form.
const FORM: usize = 4504;

fn form_of(device: &Device) -> Vec<u8> {
    let mut form = vec![0; FORM];
    let written = reference_swap::store(device, &mut form);
    form.truncate(written.length);
    form
}

fn loading(device: Device) -> Run {
    let form = form_of(&device);
    Box::new(move |by| {
        let form = black_box(&form);
        black_box(&match by {
            By::Nobody => return,
            By::Board => swap::load(form),
            _ => reference_swap::load(form),
        });
    })
}

/// Into one record, which is full from the last time.
fn loading_in_place(device: Device) -> Run {
    let form = form_of(&device);
    lent(device, move |by, device| {
        let form = black_box(&form);
        match by {
            By::Board => _ = black_box(in_place::load(device, form)),
            _ => *device = reference_swap::load(form).device,
        }
    })
}

fn passing(device: Device, seconds: u32) -> Run {
    Box::new(move |by| {
        let device = black_box(&device);
        black_box(&match by {
            By::Nobody => return,
            By::Board => linked::pass(*device, black_box(seconds)),
            _ => calls::pass(device, black_box(seconds)),
        });
    })
}

fn passing_in_place(device: Device) -> Run {
    lent(device, second_passed)
}

pub fn second_passed(by: By, device: &mut Device) {
    match by {
        By::Board => _ = black_box(in_place::pass(device, black_box(1))),
        _ => *device = calls::pass(device, black_box(1)).device,
    }
}

fn legality(device: Device) -> Run {
    Box::new(move |by| {
        let device = black_box(&device);
        black_box(match by {
            By::Nobody => return,
            By::Board => linked::legal(*device),
            _ => calls::legal(device),
        });
    })
}

fn legality_in_place(device: Device) -> Run {
    Box::new(move |by| {
        let device = black_box(&device);
        black_box(match by {
            By::Nobody => return,
            By::Board => in_place::legal(device),
            _ => calls::legal(device),
        });
    })
}

/// What a host does that wants the record as it was before a call in place.
fn copying(device: Device) -> Run {
    let place = RefCell::new(device);
    Box::new(move |by| {
        let (device, mut place) = (black_box(&device), place.borrow_mut());
        let place = black_box(&mut *place);
        if by != By::Nobody {
            *place = *device;
        }
    })
}

fn reading(code: u8, body: &str, parameter: &str) -> Run {
    let class = if code < 14 { 1 } else { 2 };
    let line = format!("%{class}{body}={parameter}\r").into_bytes();
    let command = Command { code, first: 1, second: 1 };
    Box::new(move |by| {
        let line = black_box(&line);
        black_box(&match by {
            By::Nobody => return,
            By::Board => linked::read_reply(command, line),
            _ => calls::read_reply(command, line),
        });
    })
}

fn comparing() -> Run {
    let earlier: Vec<u32> = (0..64).map(|place| place * 5_000_000).collect();
    let later: Vec<u32> = earlier.iter().map(|seconds| seconds + 600_000).collect();
    Box::new(move |by| {
        let (earlier, later, mut out) = (black_box(&earlier), black_box(&later), [0; 64]);
        let out = black_box(&mut out);
        black_box(&match by {
            By::Nobody => return,
            By::Board => linked::compare_lamps(earlier, later, out),
            _ => service::compare_lamps(earlier, later, out),
        });
    })
}
