//! Logs that leave nothing to chance, each with its form: every byte in every place of an `M` line, every lamp's
//! number, every number of seconds; a form of version 1, the longest form that loads, and the longest that there is.

use super::forms::of_counts;
use crate::compare::class_2::forms as of_class_2;
use crate::compare::forms;
use crate::face::Lent;
use crate::logs::every;

/// The form, if there is one, and the log.
pub type FormAndLog = (Option<Vec<u8>>, Vec<u8>);

pub const LOGS: [fn() -> FormAndLog; 16] = [
    every_byte,
    every_lamp,
    || (None, every::every_number()),
    || (Some(forms::old(&Lent { lamps: vec![7, 8], ..forms::least() })), burns()),
    || (Some(of_class_2::of(&of_class_2::most())), burns()),
    || (Some(longest()), burns()),
    || (Some([&longest()[..], b"\0"].concat()), burns()),
    || (Some(longest()[..longest().len() - 1].to_vec()), burns()),
    || (None, every::crlf()),
    || (Some(longest()), every::byte_order_mark()),
    || (None, every::time_stamps()),
    || (None, every::bad_digits()),
    || (Some(longest()), every::nuls()),
    || (None, every::one_long_line()),
    || (None, every::late_damage()),
    || (None, every::late_header()),
];

/// As long as its counts allow, whatever the rules do: no form is longer.
fn longest() -> Vec<u8> {
    of_counts(255, 255, 255)
}

/// Its last line has no LF.
fn burns() -> Vec<u8> {
    b"O 00000000\nR %1POWR 1\nT 7".to_vec()
}

/// In every place, before the line and after it. After each line the lamps burn for two seconds, so that the marks
/// show; then all marks are set.
fn every_byte() -> FormAndLog {
    let mut log = b"O 00000000\n".to_vec();
    let line = b"M 2 0";
    for (first, rest) in (0..5).map(|place| (place, place + 1)).chain([(0, 0), (5, 5)]) {
        for byte in 0..=255 {
            log.extend([&line[..first], &[byte], &line[rest..]].concat());
            log.extend(b"\nR %1POWR 1\nT 2\nR %1POWR 0\nT 1\nM 1 1\nM 2 1\nM 3 1\n");
        }
    }
    (Some(of_lamps(3)), log)
}

/// Numbers past a byte, with zeros before them or not; set and cleared, also in warm-up, when on and in cooling.
fn every_lamp() -> FormAndLog {
    let mut log = b"O 00000000\n".to_vec();
    for lamp in (0..=300u64).chain([65_537, 4_294_967_297]) {
        for number in [format!("{lamp}"), format!("0{lamp}")] {
            log.extend(format!("M {number} 0\nR %1POWR 1\nT 1\nR %1POWR 0\nT 1\nM {number} 1\n").bytes());
        }
    }
    for lamp in 1..=8 {
        log.extend(format!("R %1POWR 1\nM {lamp} 0\nT 1\nM {lamp} 0\nR %1POWR 0\nM {lamp} 0\nT 1\n").bytes());
    }
    for lamp in 1..=8 {
        log.extend(
            format!("M {lamp} 0\nR %1POWR 1\nM {lamp} 1\nT 1\nM {lamp} 1\nR %1POWR 0\nM {lamp} 1\nT 1\n").bytes(),
        );
    }
    (Some(of_lamps(8)), log)
}

/// W and C are one second each.
fn of_lamps(count: u32) -> Vec<u8> {
    forms::of(&Lent { lamps: (0..count).collect(), ..forms::least() })
}

#[cfg(test)]
mod tests {
    /// The version; eight counts; texts, inputs, lamps and marks; W and C; the class and its texts.
    #[test]
    fn longest() {
        assert_eq!(super::longest().len(), 1 + 8 + 255 * (5 + 2 + 4 + 1) + 4 + 1 + (2 + 255) * 256);
    }
}
