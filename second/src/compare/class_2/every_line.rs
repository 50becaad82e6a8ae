//! Lines to projectors of both classes, leaving nothing to chance.

use super::forms::common;
use super::records::set_name;
use super::setups::all_inputs;
use crate::compare::forms;
use crate::compare::random::Random;
use crate::compare::{Case, records};
use crate::face::{Act, Device, Flag, Lent, Lent2};
use crate::reference::calls;
use crate::reference::class_2::BODIES_2;
use crate::reference::commands::BODIES;
use crate::reference::rules::unmistaken;
use std::rc::Rc;

pub fn cases() -> Vec<Case> {
    let mut all = every_body();
    all.extend(every_case_of_letters());
    all.extend(every_input());
    all.extend(every_level());
    all.extend(longest());
    all
}

/// A projector of this class, on, at place 0 open. In Class 2 it has three inputs, 11, 6A and 5Z.
pub fn opened(class: u8) -> Device {
    let lent = Lent { password: Vec::new(), ..forms::common() };
    let set_up = unmistaken(|| match class {
        1 => calls::set_up(&lent),
        _ => {
            let lent = Lent { inputs: common().lent.inputs, ..lent };
            calls::set_up_2(&Lent2 { lent, ..common() })
        }
    });
    let mut device = set_up.device;
    device.own.power = 1;
    device.connections[0].phase = 2;
    device
}

fn receive(line: &[u8]) -> Act {
    Act::Receive { place: 0, bytes: [line, b"\r"].concat(), lent: vec![0xA5; 136] }
}

/// Each body of either class, some that are none, with parameters that some body has and some that none has: under each
/// class and none, to projectors of each class, in every power, with the fault flag and without.
fn every_body() -> Vec<Case> {
    let others = [b"IRES", b"RRES", b"FILT", b"RLMP", b"RFIL", b"ABCD"];
    let bodies: Vec<&[u8; 4]> =
        BODIES.iter().map(|(_, body)| *body).chain(BODIES_2[2..].iter().map(|(_, body)| *body)).chain(others).collect();
    let parameters = [
        "?", "", "0", "1", "2", "00", "01", "10", "11", "59", "6A", "6a", "5Z", "61", "?11", "?6A", "?6a", "?59",
        "?7A", "??", "? ", "?1", "?116", "11?",
    ];
    let mut all = Vec::new();
    for (class, state) in [1, 2].into_iter().flat_map(|class| (0..8).map(move |state| (class, state))) {
        let mut device = opened(class);
        device.own.power = state / 2;
        device.own.left = u32::from(state >= 4);
        device.own.fault = Flag::from(state % 2 == 1);
        device.own.chosen = 1;
        device.own.frozen = Flag::from(state == 2);
        let device = Rc::new(device);
        for body in &bodies {
            for parameter in parameters {
                for digit in *b"12" {
                    let line = [&[b'%', digit], &body[..], b" ", parameter.as_bytes()].concat();
                    all.push(Case::one(device.clone(), receive(&line)));
                }
            }
            if state == 2 {
                for head in ["%0", "%3", "%", "2", "%%", "$2", "%2%2", " %2"] {
                    all.push(Case::one(device.clone(), receive(&[head.as_bytes(), &body[..], b" ?"].concat())));
                }
            }
        }
    }
    all
}

/// Each body in every case of its letters.
fn every_case_of_letters() -> Vec<Case> {
    let device = Rc::new(opened(2));
    let mut all = Vec::new();
    for ((_, body), cases) in BODIES_2.iter().flat_map(|body| (0..16).map(move |cases| (body, cases))) {
        let letters = |at: usize| if cases >> at & 1 == 1 { body[at].to_ascii_lowercase() } else { body[at] };
        let body: Vec<u8> = (0..4).map(letters).collect();
        for parameter in [&b"?"[..], b"1", b"?6A"] {
            all.push(Case::one(device.clone(), receive(&[b"%2", &body[..], b" ", parameter].concat())));
        }
    }
    all
}

/// All 210 inputs, 32 at a time, each chosen and asked for under both classes, listed or not, with its name; and each
/// byte as one of the two characters.
fn every_input() -> Vec<Case> {
    let inputs: Vec<Vec<u8>> = all_inputs().chunks(2).map(<[u8]>::to_vec).collect();
    let mut all = Vec::new();
    for listed in inputs.chunks(32) {
        let mut device = opened(2);
        let names: Vec<Vec<u8>> = listed.iter().map(|input| [b"name of ", &input[..]].concat()).collect();
        super::records::set_inputs(&mut device, &listed.concat(), &names);
        all.push(Case::of(device, vec![receive(b"%1INST ?"), receive(b"%2INST ?"), Act::Legal]));
        for input in &inputs {
            let line = |head: &[u8]| receive(&[head, &input[..]].concat());
            let acts = vec![line(b"%1INPT "), line(b"%2INPT "), receive(b"%1INPT ?"), line(b"%2INNM ?")];
            if listed.contains(input) || input[1] == b'7' {
                all.push(Case::of(device, acts));
            }
        }
    }
    let device = Rc::new(opened(2));
    for byte in (0..=255).filter(|&byte| byte != b'\r') {
        for input in [[byte, b'1'], [byte, b'A'], [b'1', byte], [b'6', byte], [b'5', byte]] {
            for head in [&b"%1INPT "[..], b"%2INPT ", b"%2INNM ?", b"%2INNM "] {
                all.push(Case::one(device.clone(), receive(&[head, &input].concat())));
            }
        }
    }
    all
}

/// Each level of speaker and microphone, a step up and down; from one end to the other and back, and on at the ends;
/// what else there is leaves levels and freeze as they are.
fn every_level() -> Vec<Case> {
    let mut all = Vec::new();
    for (speaker, microphone) in (0..=20).flat_map(|level| [(level, 20 - level), (level, 7)]) {
        let mut device = opened(2);
        (device.own.speaker, device.own.microphone) = (speaker, microphone);
        device.own.frozen = Flag::from(speaker % 2 == 0);
        (device.own.audio_muted, device.own.video_muted) = (Flag::YES, Flag::YES);
        let device = Rc::new(device);
        for line in ["SVOL 0", "SVOL 1", "MVOL 0", "MVOL 1", "SVOL ?", "MVOL ?", "FREZ 0", "FREZ 1", "FREZ ?"] {
            all.push(Case::one(device.clone(), receive(format!("%2{line}").as_bytes())));
            all.push(Case::one(device.clone(), receive(format!("%1{line}").as_bytes())));
        }
        for line in ["%1POWR 0", "%1AVMT 30", "%1INPT 6A", "%2INPT 5Z", "%1POWR 1"] {
            all.push(Case::one(device.clone(), receive(line.as_bytes())));
        }
    }
    for body in ["SVOL", "MVOL"] {
        let step = |up: u8| receive(format!("%2{body} {up}").as_bytes());
        let steps = |count, up| vec![step(up); count];
        let acts = [steps(12, 1), steps(23, 0), steps(22, 1), steps(2, 0)].concat();
        all.push(Case::of(opened(2), acts));
    }
    let day = [
        receive(b"%2FREZ 1"),
        receive(b"%2SVOL 1"),
        receive(b"%1POWR 0"),
        receive(b"%2FREZ ?"),
        Act::Pass { seconds: 600 },
        receive(b"%1POWR 1"),
        receive(b"%2FREZ 0"),
        Act::Pass { seconds: 600 },
        receive(b"%2FREZ ?"),
        Act::SetFault { mark: true },
        receive(b"%2FREZ 0"),
        receive(b"%2MVOL 0"),
        Act::SetFault { mark: false },
        Act::Close { place: 0 },
        Act::Open { random: 7, lent: vec![0xA5; 136] },
        receive(b"%2FREZ ?"),
        Act::Store { lent: vec![0xA5; 5000] },
    ];
    all.extend([1, 2].map(|class| Case::of(opened(class), day.to_vec())));
    all
}

/// Names of every length, and lines around the longest that there is.
fn longest() -> Vec<Case> {
    let mut all = Vec::new();
    for length in 0..=128 {
        let mut device = opened(2);
        set_name(&mut device.settings.names[2], &vec![b'n'; length]);
        all.push(Case::one(device, receive(b"%2INNM ?5Z")));
        records::set_text(&mut device.settings.serial, &vec![b's'; length.min(32)]);
        records::set_text(&mut device.settings.version, &vec![b'v'; 32 - length.min(32)]);
        all.push(Case::of(device, vec![receive(b"%2SNUM ?"), receive(b"%2SVER ?")]));
    }
    for (class, length) in [1, 2].into_iter().flat_map(|class| (0..=140).map(move |length| (class, length))) {
        let line = [b"%2SNUM ", vec![b'?'; length].as_slice()].concat();
        all.push(Case::of(opened(class), vec![receive(&line), receive(b"%1CLSS ?")]));
    }
    all
}

/// Bytes of either class as one part of a line, and the rest of it later; a place that waits for its digest.
pub fn halves(random: &mut Random) -> Vec<Case> {
    let mut all = Vec::new();
    for line in [&b"%2INNM ?6A\r"[..], b"%2FREZ 1\r", b"%2CLSS ?\r", b"%3SNUM ?\r"] {
        for (class, end) in [1, 2].into_iter().flat_map(|class| (0..=line.len()).map(move |end| (class, end))) {
            let parts = [&line[..end], &line[end..], b"%1CLSS ?\r"];
            let part = |bytes: &[u8]| Act::Receive { place: 0, bytes: bytes.to_vec(), lent: vec![0xA5; 136] };
            all.push(Case::of(opened(class), parts.map(part).to_vec()));
            let mut awaiting = opened(class);
            records::set_text(&mut awaiting.settings.password, b"Schnitt8");
            awaiting.connections[0].phase = 1;
            awaiting.connections[0].random = random.word();
            let digest = unmistaken(|| {
                crate::reference::connection::leading_digest(awaiting.connections[0].random, b"Schnitt8")
            });
            let parts = [&digest[..], &line[..end], &line[end..], b"%2SVER ?\r"];
            all.push(Case::of(awaiting, parts.map(part).to_vec()));
        }
    }
    all
}
