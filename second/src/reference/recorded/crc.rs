//! The sum: "CRC-32 (RFC 1952, 8; ISO 3309; ITU-T V.42)", bit by bit, as a remainder of polynomials.

use crate::reference::rules::{Mistake, made};

/// ISO 3309: x^32 + x^26 + x^23 + x^22 + x^16 + x^12 + x^11 + x^10 + x^8 + x^7 + x^5 + x^4 + x^2 + x + 1, without its
/// first term; the coefficient of x^31 is the lowest bit.
const POLYNOMIAL: u32 = {
    let terms = [26, 23, 22, 16, 12, 11, 10, 8, 7, 5, 4, 2, 1, 0];
    let mut polynomial = 0;
    let mut place = 0;
    while place < terms.len() {
        polynomial |= 1 << (31 - terms[place]);
        place += 1;
    }
    polynomial
};

/// The sum of these bytes.
pub fn crc32(bytes: &[u8]) -> u32 {
    crc32_on(0, bytes)
}

/// The sum of bytes that have this sum, and of these after them: the remainder begins with all bits set, each byte comes
/// with its lowest bit first, and at the end all bits are turned.
pub fn crc32_on(sum: u32, bytes: &[u8]) -> u32 {
    let turned = |remainder: u32| if made(Mistake::SumNotTurned) { remainder } else { !remainder };
    let mut remainder = turned(sum);
    for byte in bytes {
        for place in 0..8 {
            let out = remainder ^ u32::from(byte >> place);
            remainder >>= 1;
            if out & 1 == 1 {
                remainder ^= POLYNOMIAL;
            }
        }
    }
    turned(remainder)
}

#[cfg(test)]
mod tests {
    use super::*;
    use std::io::Write;
    use std::process::{Command, Stdio};

    #[test]
    fn published() {
        assert_eq!(POLYNOMIAL, 0xEDB8_8320);
        assert_eq!(crc32(b"123456789"), 0xcbf4_3926);
        assert_eq!(crc32(b""), 0);
        assert_eq!(crc32(b"The quick brown fox jumps over the lazy dog"), 0x414f_a339);
    }

    #[test]
    fn in_parts() {
        let bytes: Vec<u8> = (0..1000u32).map(|place| (place * 7 + place / 251) as u8).collect();
        for cut in [0, 1, 17, 999, 1000] {
            assert_eq!(crc32_on(crc32(&bytes[..cut]), &bytes[cut..]), crc32(&bytes));
        }
    }

    /// Another program on the same bytes: gzip ends what it writes with the sum, lowest byte first, and the length.
    #[test]
    fn agrees_with_gzip() {
        for length in [0, 1, 3, 4, 5, 255, 256, 4096, 100_000] {
            let bytes: Vec<u8> = (0..length).map(|place: u32| (place * 13 + place / 199) as u8).collect();
            let mut child = Command::new("gzip").stdin(Stdio::piped()).stdout(Stdio::piped()).spawn().unwrap();
            let mut feed = child.stdin.take().unwrap();
            let written = bytes.clone();
            let feeding = std::thread::spawn(move || feed.write_all(&written).unwrap());
            let out = child.wait_with_output().unwrap().stdout;
            feeding.join().unwrap();
            let sum = u32::from_le_bytes(out[out.len() - 8..out.len() - 4].try_into().unwrap());
            assert_eq!(crc32(&bytes), sum, "{length} bytes");
        }
    }
}
