//! Logs that leave nothing to chance: every byte in every place of a good line, every count of digits, every length.

use crate::reference::text::LF;
use crate::replay::LONGEST;

pub const LOGS: [fn() -> Vec<u8>; 12] = [
    every_byte,
    every_number,
    every_length,
    more_lines_than_16_bits_count,
    crlf,
    byte_order_mark,
    time_stamps,
    bad_digits,
    nuls,
    one_long_line,
    late_damage,
    late_header,
];

/// Logs as they come to a person who has not read the rules: lines that end with CRLF.
pub fn crlf() -> Vec<u8> {
    b"O 00000000\r\nR %1POWR 1\r\nT 3600\r\nR %1LAMP ?\r\n".to_vec()
}

pub fn byte_order_mark() -> Vec<u8> {
    "\u{feff}O 00000000\nR %1POWR 1\nT 3600\n".as_bytes().to_vec()
}

pub fn time_stamps() -> Vec<u8> {
    b"2026-11-27T05:45:09Z O 00000000\n[05:45:10] R %1POWR 1\n05:45:11 T 3600\n".to_vec()
}

pub fn bad_digits() -> Vec<u8> {
    b"O 0000002A\nO 0x00002a\nO 00000000\nO 00000000\nT 1.5\nX\nX\nR %1POWR ?\nM 1 0\nM 9 1\nM 1\n".to_vec()
}

pub fn nuls() -> Vec<u8> {
    vec![0; 5000]
}

pub fn one_long_line() -> Vec<u8> {
    vec![b'R'; 300_000]
}

/// What is not played comes last, behind more lines than 16 bits count.
pub fn late_damage() -> Vec<u8> {
    let mut log = b"O 00000000\n".to_vec();
    log.extend(b"T 1\n".repeat(66_000));
    log.extend(b"O 00000000\nR %1POWR ?\r\n");
    log
}

/// A line of a history comes behind more bytes than are read first.
pub fn late_header() -> Vec<u8> {
    let mut log = b"O 00000000\n".to_vec();
    log.extend(b"R %1POWR ?\n".repeat(9_000));
    log.extend(b"\nS 1 00000000 power 0 lamps 0\n");
    log
}

fn more_lines_than_16_bits_count() -> Vec<u8> {
    vec![LF; 66_000]
}

/// After each line an `X`, then an opening: what the line did to the connection shows.
fn every_byte() -> Vec<u8> {
    let mut log = Vec::new();
    for line in [&b"O 09afAg2e"[..], b"O 0123abcd", b"R %1POWR ?", b"T 4294967295", b"T 7", b"X"] {
        for place in 0..line.len() {
            for byte in 0..=255 {
                log.extend(&line[..place]);
                log.push(byte);
                log.extend(&line[place + 1..]);
                log.extend(b"\nX\nO 00000000\n");
            }
        }
        log.extend(b"X\n");
    }
    log
}

/// Each count of digits, with and without leading zeros; each number around a power of ten or two; the lamp burns.
pub fn every_number() -> Vec<u8> {
    let mut log = b"O 00000000\nR %1POWR 1\n".to_vec();
    for digits in 0..=22 {
        for digit in '0'..='9' {
            log.extend(format!("T {}\n", digit.to_string().repeat(digits)).bytes());
            log.extend(format!("T {:0>digits$}\nR %1LAMP ?\n", digit).bytes());
        }
    }
    let edges = (0..20).map(|power| 10u64.pow(power)).chain((0..64).map(|bit| 1 << bit));
    for edge in edges {
        for number in edge.saturating_sub(2)..=edge + 2 {
            log.extend(format!("T {number}\nT {number:010}\nT {number:011}\n").bytes());
        }
    }
    log
}

/// Texts of every length around what the rules speak of, answered and not.
fn every_length() -> Vec<u8> {
    let mut log = b"O 00000000\n".to_vec();
    for length in (0..300).chain(LONGEST - 12..LONGEST + 12).chain(2 * LONGEST - 3..2 * LONGEST + 3) {
        for start in [&b"R %1CLSS "[..], b"R ", b"T ", b"O ", b"X"] {
            if length >= start.len() {
                log.extend(start);
                log.resize(log.len() + length - start.len(), b'0');
                log.push(LF);
            }
        }
    }
    log
}
