//! Lamps' marks (RULES, Lamps), rule by rule.

use super::calls::{legal, open, pass, receive, set_up};
use super::marks::set_mark;
use crate::compare::forms;
use crate::compare::histories::NO_PLACES;
use crate::face::{Device, Flag, Lent};

/// Three lamps, open at place 0, off.
fn three() -> Device {
    let lent = Lent { password: Vec::new(), lamps: vec![0, 3_599, 359_999_999], warm: 20, cool: 60, ..forms::common() };
    open(&set_up(&lent).device, 0, &mut [0; 136]).device
}

fn told(device: &mut Device, line: &[u8]) -> Vec<u8> {
    let mut out = [0; 136];
    let received = receive(device, 0, line, &mut out);
    *device = received.device;
    out[..received.length].to_vec()
}

/// The number, and the record where it is changed.
fn marks(device: &mut Device, lamp: usize, enabled: bool) -> u32 {
    let changed = set_mark(device, lamp, enabled);
    let mut expected = *device;
    if changed.number == 0 {
        expected.own.enabled[lamp] = Flag::from(enabled);
    }
    assert_eq!(changed.device, expected);
    *device = changed.device;
    changed.number
}

/// "at least one set if there are lamps, all at first".
#[test]
fn all_at_first() {
    for lamps in 0..=8 {
        let device = set_up(&Lent { lamps: vec![7; lamps], ..forms::common() }).device;
        assert_eq!(device.own.enabled, std::array::from_fn(|lamp| Flag::from(lamp < lamps)));
        for bits in 0..256usize {
            let mut other = device;
            other.own.enabled = std::array::from_fn(|lamp| Flag::from(bits >> lamp & 1 == 1));
            assert_eq!(legal(&other), bits >> lamps == 0 && (lamps == 0 || bits > 0));
        }
    }
}

/// "set by the host while power is off and refused with new number 7 (after 3) otherwise; a lamp place that does not
/// exist is 3. Clearing the last one is 3."
#[test]
fn numbers_in_their_order() {
    for power in 0..4 {
        let mut device = three();
        device.own.power = power;
        device.own.left = if power < 2 { 0 } else { 1 };
        let served = if power == 0 { 0 } else { 7 };
        for lamp in [3, 7, 8].iter().chain(NO_PLACES) {
            assert_eq!([true, false].map(|enabled| marks(&mut device, *lamp, enabled)), [3, 3]);
        }
        assert_eq!(marks(&mut device, 1, true), served, "set already");
        assert_eq!(marks(&mut device, 0, false), served);
        device.own.enabled = [false, false, true, false, false, false, false, false].map(Flag::from);
        assert_eq!(marks(&mut device, 0, false), served, "clear already, and not the last one");
        assert_eq!(marks(&mut device, 2, false), 3, "the last one");
        assert_eq!(marks(&mut device, 2, true), served);
        device.own.errors[0] = 3;
        assert_eq!(marks(&mut device, 2, false), 1);
        assert_eq!(marks(&mut device, 9, false), 1);
    }
    assert_eq!(set_mark(&set_up(&forms::least()).device, 0, true).number, 3, "no lamps");
}

/// "Only enabled lamps gain seconds or show as lit."
#[test]
fn only_enabled_lamps_burn() {
    let mut device = three();
    assert_eq!(marks(&mut device, 1, false), 0);
    assert_eq!(told(&mut device, b"%1LAMP ?\r"), b"%1LAMP=0 0 0 0 99999 0\r");
    assert_eq!(told(&mut device, b"%1POWR 1\r"), b"%1POWR=OK\r");
    assert_eq!(told(&mut device, b"%1LAMP ?\r"), b"%1LAMP=0 1 0 0 99999 1\r");
    device = pass(&device, 3_600).device;
    assert_eq!(device.own.lamps[..3], [3_600, 3_599, 359_999_999]);
    assert_eq!(told(&mut device, b"%1LAMP ?\r"), b"%1LAMP=1 1 0 0 99999 1\r");
    assert_eq!(told(&mut device, b"%1POWR 0\r"), b"%1POWR=OK\r");
    assert_eq!(marks(&mut device, 1, true), 7, "cooling is not off");
    device = pass(&device, 60).device;
    assert_eq!(marks(&mut device, 1, true), 0);
    assert_eq!(marks(&mut device, 0, false), 0);
    assert_eq!(told(&mut device, b"%1POWR 1\r"), b"%1POWR=OK\r");
    device = pass(&device, 1).device;
    assert_eq!(told(&mut device, b"%1LAMP ?\r"), b"%1LAMP=1 0 1 1 99999 1\r");
    assert_eq!(device.own.lamps[..3], [3_600, 3_600, 359_999_999]);
}
