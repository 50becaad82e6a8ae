//! RULES, Passwords, length by length.

use super::{calls, swap};
use crate::compare::forms;
use crate::face::{Command, Device, Lent};

fn with(password: &[u8]) -> Lent {
    Lent { password: password.to_vec(), ..forms::common() }
}

/// "A password of 1 to 7 is refused at set-up with new number 8".
fn number(length: usize) -> u32 {
    match length {
        1..=7 => 8,
        0 | 8..=32 => 0,
        _ => 3,
    }
}

#[test]
fn at_set_up() {
    for length in 0..=40 {
        let lent = with(&vec![b'a'; length]);
        let set_up = calls::set_up(&lent);
        assert_eq!(set_up.number, number(length), "{length}");
        assert_eq!(set_up.device == Device::BLANK, number(length) != 0);
        assert_eq!(calls::which_setting(&lent), if number(length) == 0 { 0 } else { 5 });
    }
}

/// "after every 3 has been ruled out".
#[test]
fn after_every_3() {
    let short = with(b"seven77");
    for (wrong, place) in [
        (Lent { name: b"\xFF".to_vec(), ..short.clone() }, 1),
        (Lent { maker: b"ERR1".to_vec(), ..short.clone() }, 2),
        (Lent { password: b"seven-7".to_vec(), ..short.clone() }, 5),
        (Lent { inputs: b"1111".to_vec(), ..short.clone() }, 6),
        (Lent { lamps: vec![360_000_000], ..short.clone() }, 7),
        (Lent { warm: 0, ..short.clone() }, 8),
        (Lent { cool: 601, ..short.clone() }, 9),
    ] {
        assert_eq!((calls::set_up(&wrong).number, calls::which_setting(&wrong)), (3, place));
    }
    assert_eq!((calls::set_up(&short).number, calls::which_setting(&short)), (8, 5));
}

/// "A record or a stored form with such a password is no longer legal (1, 23)."
#[test]
fn in_a_record_and_in_a_form() {
    for length in 0..=32 {
        let password = vec![b'a'; length];
        let mut device = calls::set_up(&with(b"")).device;
        device.settings.password.len = length;
        device.settings.password.bytes[..length].copy_from_slice(&password);
        assert_eq!(calls::legal(&device), number(length) == 0);
        assert_eq!(calls::pass(&device, 1).number, u32::from(number(length) != 0));
        assert_eq!(swap::store(&device, &mut [0; forms::ROOM]).number, u32::from(number(length) != 0));
        let form = forms::of(&with(&password));
        assert_eq!(swap::load(&form).number, if number(length) == 0 { 0 } else { 23 });
    }
}

/// "The controller's writer still takes 1 to 7."
#[test]
fn at_the_writer() {
    let asks_power = Command { code: 0, first: 0, second: 0 };
    for length in 0..=33 {
        let written = calls::write(asks_power, true, 0, &vec![b'a'; length], &mut [0; 168]);
        assert_eq!((written.number, written.length), if length <= 32 { (0, 32 + 9) } else { (3, 0) });
    }
}
