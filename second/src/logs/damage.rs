//! Lines of no such form, or just still of one: each kind of damage that a log has met or might.

use crate::compare::random::Random;
use crate::reference::text::CR;

/// A good line damaged, or one that looks like a good line.
pub fn damaged(random: &mut Random, mut good: Vec<u8>) -> Vec<u8> {
    match random.below(20) {
        0 => Vec::new(),
        1 | 2 => opens(random),
        3..=6 => passes(random),
        7 => closes(random),
        8 => random
            .pick(&[&b"R"[..], b"R ", b"R  ", b"r %1POWR ?", b"R%1POWR ?", b"R\t%1POWR ?", b" R %1POWR ?"])
            .to_vec(),
        9 => [good, vec![CR]].concat(),
        10 => [good, vec![random.pick(b" \t\0\xFF")]].concat(),
        11 => [vec![random.pick(b" \t\0\xFF")], good].concat(),
        12 => put_in(random, good, b"\r"),
        13 => put_in(random, good, b"\0\xFF\x80\x7F\t\x1B"),
        14 => {
            good[0] = random.pick(b"orxtQPSUWYZA0?!- \0\xFF");
            good
        }
        15 => space(random, good),
        16 => [good, vec![random.pick(b"\r\n")], b"R %1POWR ?".to_vec()].concat(),
        17 => {
            let length = random.below(40);
            random.bytes_from(0, length)
        }
        _ => {
            random.damage(&mut good);
            good
        }
    }
}

/// Hex digits in upper case, too few or too many, one that is none.
fn opens(random: &mut Random) -> Vec<u8> {
    let mut digits: Vec<u8> = (0..8).map(|_| random.pick(b"0123456789abcdef")).collect();
    let place = random.below(8);
    match random.below(8) {
        0 => digits[place] = random.pick(b"ABCDEF"),
        1 => digits.make_ascii_uppercase(),
        2 => digits.truncate(random.pick(&[0, 1, 4, 6, 7, 7, 7])),
        3 => digits.resize(random.pick(&[9, 9, 9, 10, 16, 32]), b'0'),
        4 => digits[place] = random.pick(b"ggg`/:G@ \0\xFF-"),
        5 => digits.splice(0..2, *b"0x").for_each(drop),
        6 => digits.insert(4, b' '),
        _ => (),
    }
    [b"O ", &digits[..]].concat()
}

/// Numbers of no digit, of ten and eleven, around 4,294,967,295, with signs and what else people write.
fn passes(random: &mut Random) -> Vec<u8> {
    let number = match random.below(10) {
        0 => String::new(),
        1 => format!("{}", (1u64 << 32) - 3 + random.below(6) as u64),
        2 => format!("{:011}", random.word() >> random.below(32)),
        3 => format!("{:010}", random.word() >> random.below(32)),
        4 => format!("{}", 1_000_000_000 + random.below(9_000_000_000)),
        5 => format!("{}", 10_000_000_000 + random.below(90_000_000_000)),
        6 => "0".repeat(random.from_to(1, 12)),
        7 => format!("{}{}", random.pick(&["+", "-", " ", "0x", "\t", "."]), random.below(100)),
        8 => format!(
            "{}{}",
            random.below(100),
            random.pick(&["+", "-", " ", "s", ".5", ",000", "e3", ":", "/", "\0", "\r"])
        ),
        _ => random
            .pick(&["9", "99999999999", "42949672950", "18446744073709551616", "18446744073709551621", ":", "/", "1:"])
            .to_string(),
    };
    match random.below(12) {
        0 => format!("T{number}").into_bytes(),
        1 => format!("t {number}").into_bytes(),
        _ => format!("T {number}").into_bytes(),
    }
}

fn closes(random: &mut Random) -> Vec<u8> {
    random
        .pick(&[&b"x"[..], b"X ", b" X", b"XX", b"X\r", b"X\0", b"X 0", b"\0X", b"X 00000000", b"\xEF\xBB\xBFX"])
        .to_vec()
}

fn put_in(random: &mut Random, mut line: Vec<u8>, bytes: &[u8]) -> Vec<u8> {
    line.insert(random.below(line.len() + 1), random.pick(bytes));
    line
}

/// The space missing, doubled, or another character in its place.
fn space(random: &mut Random, mut line: Vec<u8>) -> Vec<u8> {
    if line.len() > 1 {
        match random.below(3) {
            0 => drop(line.remove(1)),
            1 => line.insert(1, b' '),
            _ => line[1] = random.pick(b"\t_0=\0\xA0"),
        }
    }
    line
}
