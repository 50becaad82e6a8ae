//! Histories of projectors of both classes, of Class 2 more often; streams in cuts and at four places.

use super::{forms, lines, records, setups};
use crate::compare::histories::{self, after, any_random, place};
use crate::compare::random::Random;
use crate::compare::{Case, setups as setups_1};
use crate::face::{Act, Device, PLACES};

/// A set-up, then calls of every kind, each lent the record that the last one returned.
pub fn history(random: &mut Random) -> Case {
    let mut acts = vec![if random.one_in(4) {
        Act::SetUp(setups_1::legal(random))
    } else {
        Act::SetUp2(Box::new(setups::legal(random)))
    }];
    let mut device = after(&Device::BLANK, &acts[0]);
    while acts.len() < 40 && !random.one_in(40) {
        let act = act(random, &device);
        device = after(&device, &act);
        acts.push(act);
    }
    Case::of(Device::BLANK, acts)
}

/// A call on this record: mostly lines of either class, and what brings the power on.
pub fn act(random: &mut Random, device: &Device) -> Act {
    let taken = device.connections.iter().filter(|connection| connection.phase != 0).count();
    if random.one_in([2, 4, 8, 12, 24][taken]) {
        return Act::Open { random: any_random(random), lent: random.reply_memory(136) };
    }
    let place = place(random, device);
    let here = place.min(PLACES - 1);
    match random.below(32) {
        0..=3 => histories::act(random, device),
        4 => Act::SetUp2(Box::new(setups::any(random))),
        5 => forms::load(random, device),
        6 => forms::store(random, device),
        7 | 8 if device.own.power != 1 => Act::Pass { seconds: device.own.left.max(1) },
        7..=10 if device.own.power == 0 => power_on(random, device, place),
        7 => Act::SetFault { mark: false },
        11 => Act::Receive { place, bytes: lines::stream(random, device, here), lent: random.reply_memory(136) },
        12 | 13 => {
            let mut bytes = lines::line(random, device, here);
            bytes.truncate(random.below(20));
            Act::Receive { place, bytes, lent: random.memory(136) }
        }
        _ => Act::Receive { place, bytes: lines::line(random, device, here), lent: random.reply_memory(136) },
    }
}

fn power_on(random: &mut Random, device: &Device, place: usize) -> Act {
    let digest = match device.connections[place.min(PLACES - 1)].phase {
        1 => crate::compare::lines::digest(random, device, place.min(PLACES - 1)),
        _ => Vec::new(),
    };
    Act::Receive { place, bytes: [&digest[..], b"%1POWR 1\r"].concat(), lent: random.memory(136) }
}

/// A stream, handed to the board in random cuts, to the reference program whole.
pub fn stream(random: &mut Random) -> (Device, Act) {
    let device = records::legal(random);
    let place = random.below(PLACES);
    let bytes = lines::stream(random, &device, place);
    let pieces = random.pick(&[1, 2, 5, 20]);
    let mut cuts: Vec<usize> = (0..pieces).map(|_| random.below(bytes.len() + 1)).collect();
    if random.one_in(8) {
        cuts = (0..bytes.len()).collect();
    }
    cuts.sort_unstable();
    (device, Act::HandOn { place, bytes, cuts })
}

/// Streams for all four places, in parts that come in any turn.
pub fn interleaved(random: &mut Random) -> (Device, Act) {
    let device = records::legal(random);
    let mut unsent: [Vec<u8>; PLACES] = std::array::from_fn(|place| lines::stream(random, &device, place));
    let mut parts = Vec::new();
    while unsent.iter().any(|bytes| !bytes.is_empty()) && parts.len() < 60 {
        let place = random.below(PLACES);
        let length = random.from_to(0, unsent[place].len().min(60));
        parts.push((place, unsent[place].drain(..length).collect()));
    }
    (device, Act::Interleave { parts })
}
