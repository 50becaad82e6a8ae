//! Lamps' marks (RULES, Lamps), leaving nothing to chance.

use super::histories::NO_PLACES;
use super::random::Random;
use super::{Case, forms, records};
use crate::face::{Act, Device, Flag, Lent};
use crate::reference::calls;
use crate::reference::rules::unmistaken;
use crate::reference::set_up::LAMP_LIMIT;
use std::rc::Rc;

pub fn cases(random: &mut Random) -> Vec<Case> {
    let mut all = every_pattern(random);
    all.extend(every_lamp(random));
    all.extend(at_work());
    all.extend(in_forms().into_iter().map(|bytes| Case::one(Device::BLANK, Act::Load { bytes })));
    all
}

/// A projector with so many lamps, in a power, with the marks that these bits set, also past its lamps; at place 0
/// somebody is served.
fn marked(lamps: usize, power: u8, bits: usize) -> Device {
    let seconds = (0..lamps as u32).map(|lamp| if lamp % 2 == 0 { 3_599 } else { LAMP_LIMIT - lamp }).collect();
    let lent = Lent { password: Vec::new(), lamps: seconds, ..forms::common() };
    let mut device = unmistaken(|| calls::set_up(&lent)).device;
    device.own.power = power;
    device.own.left = if power < 2 { 0 } else { 2 };
    device.own.enabled = std::array::from_fn(|lamp| Flag::from(bits >> lamp & 1 == 1));
    device.connections[0].phase = 2;
    device
}

/// Every number of lamps with every pattern of eight marks: legal or not, and stored. Where eight lamps have them, in
/// every power: asked for, and let burn.
fn every_pattern(random: &mut Random) -> Vec<Case> {
    let mut all = Vec::new();
    for (lamps, bits) in (0..=8).flat_map(|lamps| (0..256).map(move |bits| (lamps, bits))) {
        let device = marked(lamps, 0, bits);
        all.push(Case::one(device, Act::Legal));
        all.push(Case::one(device, Act::Store { lent: random.memory(forms::ROOM) }));
    }
    for (power, bits) in (0..4).flat_map(|power| (0..256).map(move |bits| (power, bits))) {
        let device = marked(8, power, bits);
        let asked = Act::Receive { place: 0, bytes: b"%1LAMP ?\r".to_vec(), lent: random.memory(136) };
        all.push(Case::one(device, asked));
        all.extend([1, 2, 3, 4_000].map(|seconds| Case::one(device, Act::Pass { seconds })));
        all.push(Case::one(device, Act::PassInPlace { seconds: 1 }));
    }
    all
}

/// Each lamp's mark, and that of lamps that there are not, set and cleared: in every power and under the fault flag,
/// with one mark set, some, all, and on records that are not legal.
fn every_lamp(random: &mut Random) -> Vec<Case> {
    let mut all = Vec::new();
    let singles = (0..8).map(|lamp| 1 << lamp);
    let patterns: Vec<usize> =
        singles.clone().chain(singles.map(|bit| 0xFF ^ bit)).chain([0, 0x55, 0xAA, 0xFF]).collect();
    for (lamps, power) in [0, 1, 2, 3, 8].iter().flat_map(|&lamps| (0..4).map(move |power| (lamps, power))) {
        let mut tried: Vec<usize> = patterns.iter().map(|bits| bits & ((1 << lamps) - 1)).collect();
        tried.sort_unstable();
        tried.dedup();
        for bits in tried {
            let mut device = marked(lamps, power, bits);
            device.own.fault = Flag::from(random.one_in(4));
            let device = Rc::new(device);
            for lamp in (0..=9).chain(NO_PLACES.iter().copied()) {
                let acts = [false, true].map(|enabled| Act::SetMark { lamp, enabled });
                all.extend(acts.map(|act| Case::one(device.clone(), act)));
            }
        }
    }
    for lamp in (0..=8).chain([usize::MAX]) {
        for enabled in [false, true] {
            for device in [Device::BLANK, records::damaged(random), records::damaged(random)] {
                all.push(Case::one(device, Act::SetMark { lamp, enabled }));
            }
        }
    }
    all
}

/// One lamp after the other: marks set and cleared in turn while off, refused otherwise, each lamp's seconds its own;
/// stored and loaded with them.
fn at_work() -> Vec<Case> {
    let receive = |bytes: &[u8]| Act::Receive { place: 0, bytes: bytes.to_vec(), lent: vec![0xA5; 136] };
    let mut all = Vec::new();
    for (lamps, first) in (1..=8).flat_map(|lamps| (0..lamps).map(move |first| (lamps, first))) {
        let mut acts = Vec::new();
        for turn in 0..3 {
            let burns = (first + turn) % lamps;
            acts.push(Act::SetMark { lamp: burns, enabled: true });
            acts.extend((0..lamps).filter(|&lamp| lamp != burns).map(|lamp| Act::SetMark { lamp, enabled: false }));
            acts.push(Act::SetMark { lamp: burns, enabled: false });
            acts.extend([receive(b"%1POWR 1\r"), Act::SetMark { lamp: burns, enabled: true }]);
            acts.extend([Act::Pass { seconds: 3_600 }, receive(b"%1LAMP ?\r")]);
            acts.extend([receive(b"%1POWR 0\r"), Act::SetMark { lamp: first, enabled: true }, receive(b"%1LAMP ?\r")]);
            acts.extend([Act::Pass { seconds: 600 }, Act::Store { lent: vec![0xA5; forms::ROOM] }]);
        }
        all.push(Case::of(marked(lamps, 0, (1 << lamps) - 1), acts));
    }
    all
}

/// Every pattern of marks as bytes, every byte as a mark, every count of them for every count of lamps; each version
/// with the other's bytes; cut short, and with bytes left over.
fn in_forms() -> Vec<Vec<u8>> {
    let with = |lamps: usize| Lent { lamps: vec![7; lamps], ..forms::common() };
    let mut all = Vec::new();
    for bits in 0..256 {
        let marks: Vec<u8> = (0..8).map(|lamp| (bits >> lamp & 1) as u8).collect();
        all.push(forms::marked(&with(8), &marks));
    }
    for byte in 0..=255 {
        all.extend([[byte, 1, 1], [1, byte, 0], [0, 0, byte]].map(|marks| forms::marked(&with(3), &marks)));
        all.push(forms::marked(&with(1), &[byte]));
    }
    for (lamps, count) in (0..=9).flat_map(|lamps| (0..=10).map(move |count| (lamps, count))) {
        for byte in [0, 1] {
            let form = forms::marked(&with(lamps), &vec![byte; count]);
            all.push([&form[..], b"\x01"].concat());
            all.extend((1..=6).map(|cut| form[..form.len() - cut].to_vec()));
            let mut as_old = form.clone();
            as_old[0] = 1;
            all.extend([form, as_old]);
        }
    }
    for lamps in 0..=9 {
        let form = forms::old(&with(lamps));
        all.extend([1, 2, 3, 0].map(|version| [&[version], &form[1..]].concat()));
        all.push([&form[..], b"\x01"].concat());
        all.push(form[..form.len() - 1].to_vec());
    }
    all.push(forms::marked(&with(255), &[1; 255]));
    all
}
