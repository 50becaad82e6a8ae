//! Four places (RULES, Places), leaving nothing to chance. `controllers` has the random ones.

use super::histories::NO_PLACES;
use super::random::Random;
use super::records::NO_FLAGS;
use super::{Case, forms, records};
use crate::face::{Act, Connection, Device, Flag, Lent, Line, PLACES};
use crate::reference::calls;
use crate::reference::connection::leading_digest;
use crate::reference::rules::{knows_class_2, unmistaken};
use std::rc::Rc;

const PASSWORD: &[u8] = b"Schnitt8";

pub fn cases(random: &mut Random) -> Vec<Case> {
    let mut all = every_phase(random);
    all.extend(illegal_at_one_place(random));
    all.extend(opened_again());
    all.extend(half_lines());
    all.extend(outsiders());
    all.extend(timeouts());
    all
}

fn fresh(password: &[u8]) -> Device {
    unmistaken(|| calls::set_up(&Lent { password: password.to_vec(), ..forms::common() })).device
}

fn connection(phase: u8, age: u32, random: u32) -> Connection {
    Connection { phase, age, random, ..Connection::CLOSED }
}

/// A place's connection in a phase, unlike the other places' in it.
fn at(place: usize, phase: u8) -> Connection {
    let place = place as u32;
    match phase {
        0 => Connection::CLOSED,
        1 => connection(1, 3 * place, 0x498e_4a67 + place),
        2 => connection(2, 0, 0x498e_4a67 + place),
        _ => connection(3, 26 + place, 0x498e_4a67 + place),
    }
}

/// A secured projector with its four places in these phases.
fn in_phases(phases: [u8; PLACES]) -> Device {
    Device { connections: std::array::from_fn(|place| at(place, phases[place])), ..fresh(PASSWORD) }
}

fn receive(place: usize, bytes: &[u8]) -> Act {
    Act::Receive { place, bytes: bytes.to_vec(), lent: vec![0xA5; 136] }
}

/// The line that opens a place of `in_phases`, and is then answered.
fn led(place: usize, line: &[u8]) -> Vec<u8> {
    [&unmistaken(|| leading_digest(0x498e_4a67 + place as u32, PASSWORD))[..], line].concat()
}

/// The places that there are, and numbers that are none.
fn every_number() -> impl Iterator<Item = usize> {
    (0..PLACES).chain(NO_PLACES.iter().copied())
}

/// The four places in every phase each: opened, closed and received at, at every number, with enough memory and a byte
/// too little; and let time pass.
fn every_phase(random: &mut Random) -> Vec<Case> {
    let mut all = Vec::new();
    for phases in 0..256 {
        let device = Rc::new(in_phases(std::array::from_fn(|place| (phases >> (2 * place) & 3) as u8)));
        let mut one = |act| all.push(Case::one(device.clone(), act));
        for length in [0, 135, 136, 137] {
            one(Act::Open { random: random.word(), lent: random.memory(length) });
        }
        for number in every_number() {
            one(Act::Close { place: number });
            one(Act::Receive { place: number, bytes: b"%1POWR ?\r".to_vec(), lent: random.memory(136) });
            one(Act::Receive { place: number, bytes: Vec::new(), lent: random.memory(135) });
        }
        for place in 0..PLACES {
            one(receive(place, b""));
            one(receive(place, b"%1"));
            one(receive(place, &led(place, b"%1POWR 1\r%1")));
            one(receive(place, &led((place + 1) % PLACES, b"%1POWR 1\r")));
        }
        for seconds in [0, 1, 3, 4, 21, 27, 29, 30, 31] {
            one(Act::Pass { seconds });
            one(Act::PassInPlace { seconds });
        }
        one(Act::SetFault { mark: true });
        one(Act::Store { lent: random.memory(forms::ROOM) });
    }
    all
}

/// Connections that are not legal, in each phase.
fn illegal() -> Vec<Connection> {
    let line = |overlong: u8, held, byte| {
        let mut bytes = [0; 167];
        bytes[..167.min(held)].fill(byte);
        Line { overlong: Flag(overlong), held, bytes }
    };
    let mut late = line(0, 0, 0);
    late.bytes[166] = 1;
    let with = |phase, line| Connection { line, ..connection(phase, 0, u32::from(phase != 0)) };
    let mut all = vec![connection(0, 1, 0), connection(0, 0, 1), connection(2, 1, 0), connection(2, 29, 7)];
    all.extend([4, 5, 128, 255].map(|phase| connection(phase, 0, 0)));
    all.extend([1, 3].map(|phase| connection(phase, 30, 7)));
    all.extend([1, 3].map(|phase| connection(phase, u32::MAX, 7)));
    all.extend([0, 3].map(|phase| with(phase, line(0, 1, b'%'))));
    all.extend([0, 3].map(|phase| with(phase, line(1, 0, 0))));
    all.extend([1, 2].map(|phase| with(phase, line(0, 1, b'\r'))));
    all.extend([1, 2].map(|phase| with(phase, line(1, 1, b'%'))));
    all.extend([1, 2].map(|phase| with(phase, line(0, 168, b'%'))));
    all.push(with(2, line(0, 136, b'%')));
    if knows_class_2() {
        all.extend([1, 2].iter().flat_map(|&phase| NO_FLAGS.map(|flag| with(phase, line(flag.0, 0, 0)))));
    }
    all.extend([0, 1, 2, 3].map(|phase| with(phase, late)));
    all
}

/// Not legal at one place, with the others as they may be: every call refuses, also at the other places, with short
/// memory and at a place that there is not.
fn illegal_at_one_place(random: &mut Random) -> Vec<Case> {
    let mut all = Vec::new();
    for place in 0..PLACES {
        for illegal in illegal() {
            let mut device = records::legal(random);
            device.connections[place] = illegal;
            let device = Rc::new(device);
            let mut one = |act| all.push(Case::one(device.clone(), act));
            one(Act::Legal);
            one(Act::Open { random: 7, lent: vec![0xA5; 136] });
            one(Act::Open { random: 7, lent: vec![0xA5; 135] });
            for number in (0..PLACES).chain([4, usize::MAX]) {
                one(Act::Close { place: number });
                one(receive(number, b"%1POWR ?\r"));
                one(Act::Receive { place: number, bytes: b"%".to_vec(), lent: Vec::new() });
            }
            one(Act::Pass { seconds: 1 });
            one(Act::PassInPlace { seconds: 30 });
            one(Act::SetFault { mark: true });
            one(Act::SetErrors { digits: vec![3] });
            one(Act::Store { lent: vec![0xA5; forms::ROOM] });
        }
    }
    all
}

/// Five are opened, some of the four closed, from the first or from the last, and as many opened again, and one more.
fn opened_again() -> Vec<Case> {
    let open = |random| Act::Open { random, lent: vec![0xA5; 136] };
    let mut all = Vec::new();
    for (closed, password) in (0..16).flat_map(|closed| [(closed, &b""[..]), (closed, PASSWORD)]) {
        let mut places: Vec<usize> = (0..PLACES).filter(|place| closed >> place & 1 == 1).collect();
        for _ in 0..2 {
            let mut acts: Vec<Act> = (1..=5).map(open).collect();
            acts.extend(places.iter().map(|&place| Act::Close { place }));
            acts.extend(places.iter().map(|&place| Act::Close { place }));
            acts.extend((0..=places.len() as u32).map(|turn| open(10 + turn)));
            acts.extend((0..PLACES).map(|place| receive(place, b"%1CLSS ?\r")));
            acts.push(Act::Pass { seconds: 30 });
            acts.extend((0..=4).map(|turn| open(20 + turn)));
            all.push(Case::of(fresh(password), acts));
            places.reverse();
        }
    }
    all
}

/// Two lines at two places, each cut once and anywhere, their parts in turn; both connections open, or one or both
/// awaiting their digest.
fn half_lines() -> Vec<Case> {
    let mut all = Vec::new();
    for (first, second) in pairs() {
        for (phases, cuts) in [([2, 2], 1), ([1, 2], 8), ([2, 1], 8), ([1, 1], 9)] {
            let mut device = in_phases([2; PLACES]);
            device.connections[first] = at(first, phases[0]);
            device.connections[second] = at(second, phases[1]);
            let line = |place, phase, line: &[u8]| if phase == 1 { led(place, line) } else { line.to_vec() };
            let (one, other) = (line(first, phases[0], b"%1POWR 1\r"), line(second, phases[1], b"%1POWR ?\r"));
            for end in (0..=one.len()).step_by(cuts) {
                for other_end in (0..=other.len()).step_by(cuts) {
                    let acts = vec![
                        receive(first, &one[..end]),
                        receive(second, &other[..other_end]),
                        receive(first, &one[end..]),
                        receive(second, &other[other_end..]),
                    ];
                    all.push(Case::of(device, acts));
                }
            }
        }
    }
    all
}

fn pairs() -> impl Iterator<Item = (usize, usize)> {
    (0..PLACES * PLACES).map(|pair| (pair / PLACES, pair % PLACES)).filter(|(first, second)| first != second)
}

/// At one place somebody without the password, at another one who has it and commands, before, between and after.
fn outsiders() -> Vec<Case> {
    let mut all = Vec::new();
    for (outside, inside) in pairs() {
        let overlong = [&[b'0'; 168][..], b"\r"].concat();
        let lines = [
            b"%1POWR 1\r".to_vec(),
            b"\r".to_vec(),
            led(inside, b"%1POWR 1\r"),
            led(outside, b"%1POWR 1\r").to_ascii_uppercase(),
            led(outside, b"")[..31].iter().chain(b"%1POWR 1\r").copied().collect(),
            overlong[..100].to_vec(),
            overlong,
            led(outside, b"%1AVMT 31\r"),
        ];
        for line in lines {
            for turn in 0..4 {
                let mut acts = vec![
                    receive(inside, &led(inside, b"%1POWR 1\r")),
                    Act::Pass { seconds: 20 },
                    receive(inside, b"%1INPT 32\r"),
                    receive(inside, b"%1POWR ?\r"),
                    Act::Pass { seconds: 9 },
                    receive(inside, b"%1LAMP ?\r"),
                    receive(outside, b"%1POWR 0\r"),
                    Act::Pass { seconds: 30 },
                    receive(outside, b"%1POWR 0\r"),
                    receive(inside, b"%1POWR ?\r"),
                ];
                acts.insert(turn, receive(outside, &line));
                all.push(Case::of(in_phases([1; PLACES]), acts));
            }
        }
    }
    all
}

/// One place awaiting or failed at each age, and each number of seconds to its closing and past it, while the others
/// are open, or closed, or on their own way.
fn timeouts() -> Vec<Case> {
    let mut all = Vec::new();
    for place in 0..PLACES {
        for (phase, others) in [1, 3].into_iter().flat_map(|phase| [0, 1, 2, 3].map(|others| (phase, others))) {
            for age in [0, 1, 14, 28, 29] {
                let mut device = in_phases([others; PLACES]);
                device.connections[place] = connection(phase, age, 7);
                device.own.power = 1;
                for seconds in [0, 1, 2, 28, 29, 30, 31].map(|seconds: u32| seconds.saturating_sub(age)) {
                    let act = if place % 2 == 0 { Act::Pass { seconds } } else { Act::PassInPlace { seconds } };
                    all.push(Case::of(device, vec![act, receive(place, b"\r"), Act::Legal]));
                }
            }
        }
    }
    all
}
