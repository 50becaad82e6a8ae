//! Four controllers on one projector (RULES, Places): histories of several at once, and their streams in parts.

use super::histories::{after, any_random, error_digits};
use super::random::Random;
use super::{Case, histories, lines, records, setups};
use crate::face::{Act, Connection, Device, PLACES};

/// Two to five connect. Then lines come in parts, at one place and another in turn; between them time passes, the host
/// calls, somebody goes, somebody connects again.
pub fn history(random: &mut Random) -> Case {
    let mut acts = vec![Act::SetUp(setups::legal(random))];
    let mut device = after(&Device::BLANK, &acts[0]);
    let mut unsent: [Vec<u8>; PLACES] = Default::default();
    let openings = random.from_to(2, 5);
    for turn in 0..openings + random.from_to(4, 36) {
        let act = match random.below(20) {
            _ if turn < openings => open(random),
            0 => open(random),
            1 => Act::Close { place: random.below(PLACES) },
            2 | 3 => Act::Pass { seconds: random.pick(&[1, 1, 2, 14, 15, 28, 29, 30, 31, 600]) },
            4 => Act::PassInPlace { seconds: random.pick(&[1, 2, 29, 30, 600, 3600]) },
            5 if random.one_in(3) => Act::SetMark { lamp: random.below(4), enabled: random.one_in(2) },
            5 if random.one_in(2) => Act::SetFault { mark: random.one_in(3) },
            5 => Act::SetErrors { digits: error_digits(random) },
            6 => histories::act(random, &device),
            _ => next_part(random, &device, &mut unsent),
        };
        device = after(&device, &act);
        acts.push(act);
    }
    Case::of(Device::BLANK, acts)
}

fn open(random: &mut Random) -> Act {
    Act::Open { random: any_random(random), lent: random.memory(136) }
}

/// Of what is still to come at a place: all, or the first bytes of it.
pub fn next_part(random: &mut Random, device: &Device, unsent: &mut [Vec<u8>; PLACES]) -> Act {
    let place = random.below(PLACES);
    if unsent[place].is_empty() {
        unsent[place] = lines::line(random, device, place);
    }
    let bytes = part(random, &mut unsent[place]);
    Act::Receive { place, bytes, lent: random.memory(136) }
}

fn part(random: &mut Random, unsent: &mut Vec<u8>) -> Vec<u8> {
    let length = match random.below(4) {
        0 | 1 => unsent.len(),
        2 => random.from_to(0, unsent.len()),
        _ => unsent.len().min(random.from_to(1, 40)),
    };
    unsent.drain(..length).collect()
}

/// A record with somebody at most places, and a stream for each, in parts that come in any turn.
pub fn interleaved(random: &mut Random) -> (Device, Act) {
    let mut device = records::legal(random);
    for place in 0..PLACES {
        if random.one_in(2) {
            records::connect_as(random, &mut device, place, &[1, 1, 2, 2, 2, 3]);
        }
    }
    if random.one_in(4) {
        device.connections[random.below(PLACES)] = Connection::CLOSED;
    }
    let mut unsent: [Vec<u8>; PLACES] = std::array::from_fn(|place| lines::stream(random, &device, place));
    let mut parts = Vec::new();
    while unsent.iter().any(|bytes| !bytes.is_empty()) && parts.len() < 80 {
        let place = random.below(PLACES);
        let bytes = part(random, &mut unsent[place]);
        parts.push((place, bytes));
    }
    (device, Act::Interleave { parts })
}
