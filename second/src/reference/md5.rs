//! MD5, from RFC 1321, section 3: the message padded as a whole, then taken in blocks of sixteen words.

use super::rules::{Mistake, made};

/// Section 3.4: the number of places that each step of a round turns its sum to the left, four steps long.
const TURNS: [[u32; 4]; 4] = [[7, 12, 17, 22], [5, 9, 14, 20], [4, 11, 16, 23], [6, 10, 15, 21]];

/// Section 3.4: T[i] is "the integer part of 4294967296 times abs(sin(i)), where i is in radians".
#[rustfmt::skip]
const T: [u32; 64] = [
    0xd76aa478, 0xe8c7b756, 0x242070db, 0xc1bdceee, 0xf57c0faf, 0x4787c62a, 0xa8304613, 0xfd469501,
    0x698098d8, 0x8b44f7af, 0xffff5bb1, 0x895cd7be, 0x6b901122, 0xfd987193, 0xa679438e, 0x49b40821,
    0xf61e2562, 0xc040b340, 0x265e5a51, 0xe9b6c7aa, 0xd62f105d, 0x02441453, 0xd8a1e681, 0xe7d3fbc8,
    0x21e1cde6, 0xc33707d6, 0xf4d50d87, 0x455a14ed, 0xa9e3e905, 0xfcefa3f8, 0x676f02d9, 0x8d2a4c8a,
    0xfffa3942, 0x8771f681, 0x6d9d6122, 0xfde5380c, 0xa4beea44, 0x4bdecfa9, 0xf6bb4b60, 0xbebfbc70,
    0x289b7ec6, 0xeaa127fa, 0xd4ef3085, 0x04881d05, 0xd9d4d039, 0xe6db99e5, 0x1fa27cf8, 0xc4ac5665,
    0xf4292244, 0x432aff97, 0xab9423a7, 0xfc93a039, 0x655b59c3, 0x8f0ccc92, 0xffeff47d, 0x85845dd1,
    0x6fa87e4f, 0xfe2ce6e0, 0xa3014314, 0x4e0811a1, 0xf7537e82, 0xbd3af235, 0x2ad7d2bb, 0xeb86d391,
];

/// Section 3.4: the function of the round, and the word that the step adds.
fn round(step: usize, x: u32, y: u32, z: u32) -> (u32, usize) {
    match step / 16 {
        0 => ((x & y) | (!x & z), step),
        1 => ((x & z) | (y & !z), (5 * step + 1) % 16),
        2 => (x ^ y ^ z, (3 * step + 5) % 16),
        _ => (y ^ (x | !z), 7 * step % 16),
    }
}

fn block(state: [u32; 4], words: [u32; 16]) -> [u32; 4] {
    let [mut a, mut b, mut c, mut d] = state;
    for step in 0..64 {
        let (mixed, word) = round(step, b, c, d);
        let sum = a.wrapping_add(mixed).wrapping_add(words[word]).wrapping_add(T[step]);
        let next = b.wrapping_add(sum.rotate_left(TURNS[step / 16][step % 4]));
        (a, b, c, d) = (d, next, b, c);
    }
    [state[0].wrapping_add(a), state[1].wrapping_add(b), state[2].wrapping_add(c), state[3].wrapping_add(d)]
}

/// Section 2: "a sequence of bytes can be interpreted as a sequence of 32-bit words .. with the low-order byte given
/// first".
fn words(bytes: &[u8]) -> [u32; 16] {
    let mut words = [0; 16];
    for (word, four) in words.iter_mut().zip(bytes.chunks_exact(4)) {
        *word = u32::from_le_bytes([four[0], four[1], four[2], four[3]]);
    }
    words
}

/// Sections 3.1 and 3.2: what is left of the message after its whole blocks, a single 1 bit, zeros up to 56 bytes
/// modulo 64, and the length in bits, modulo 2^64, low-order word first.
fn last_blocks(rest: &[u8], message_length: usize) -> Vec<u8> {
    let mut padded = rest.to_vec();
    if !(made(Mistake::PaddingShort) && rest.len() == 56) {
        padded.push(0x80);
    }
    while padded.len() % 64 != 56 {
        padded.push(0);
    }
    padded.extend_from_slice(&(message_length as u64).wrapping_mul(8).to_le_bytes());
    padded
}

pub fn md5(message: &[u8]) -> [u8; 16] {
    let mut state = [0x67452301, 0xefcdab89, 0x98badcfe, 0x10325476];
    let whole = message.chunks_exact(64);
    let last = last_blocks(whole.remainder(), message.len());
    for bytes in whole.chain(last.chunks_exact(64)) {
        state = block(state, words(bytes));
    }
    let mut digest = [0; 16];
    for (bytes, word) in digest.chunks_exact_mut(4).zip(state) {
        bytes.copy_from_slice(&word.to_le_bytes());
    }
    digest
}

pub fn hex(digest: [u8; 16]) -> [u8; 32] {
    let mut digits = [0; 32];
    for (pair, byte) in digits.chunks_exact_mut(2).zip(digest) {
        pair.copy_from_slice(&[b"0123456789abcdef"[byte as usize >> 4], b"0123456789abcdef"[byte as usize & 15]]);
    }
    digits
}

#[cfg(test)]
mod tests {
    use super::*;
    use std::io::Write;
    use std::process::{Command, Stdio};

    fn hashes_to(message: &str, digest: &str) {
        assert_eq!(hex(md5(message.as_bytes())), digest.as_bytes(), "{message}");
    }

    /// RFC 1321, A.5.
    #[test]
    fn published_vectors() {
        hashes_to("", "d41d8cd98f00b204e9800998ecf8427e");
        hashes_to("a", "0cc175b9c0f1b6a831c399e269772661");
        hashes_to("abc", "900150983cd24fb0d6963f7d28e17f72");
        hashes_to("message digest", "f96b697d7cb7938d525a2f31aaf161d0");
        hashes_to("abcdefghijklmnopqrstuvwxyz", "c3fcd3d76192e4007dfb496cca67e13b");
        hashes_to("ABCDEFGHIJKLMNOPQRSTUVWXYZabcdefghijklmnopqrstuvwxyz0123456789", "d174ab98d277d9f5a5611c2c9f419d9f");
        hashes_to(
            "12345678901234567890123456789012345678901234567890123456789012345678901234567890",
            "57edf4a22be3c955ac49da2e2107b67a",
        );
    }

    /// The example of PJLink 1.04, 5.1: the spelling JBMIAProjectorLink gives what it prints.
    #[test]
    fn example_of_the_specification() {
        hashes_to("498e4a67JBMIAProjectorLink", "5d8409bc1c3fa39749434aa3a5c38682");
        hashes_to("498e4a67JBMIAPjectorLink", "f549ba2e5309d551aabc19da78685b78");
    }

    /// Another program on the same bytes: every length around one, two and three blocks, and a longer one.
    #[test]
    fn agrees_with_md5sum() {
        for length in (54..=66).chain(118..=130).chain([190, 191, 192, 100_000]) {
            let message: Vec<u8> = (0..length).map(|place: u32| (place * 7 + place / 251) as u8).collect();
            assert_eq!(hex(md5(&message)), md5sum(&message), "{length} bytes");
        }
    }

    fn md5sum(message: &[u8]) -> [u8; 32] {
        let mut child = Command::new("md5sum").stdin(Stdio::piped()).stdout(Stdio::piped()).spawn().unwrap();
        child.stdin.take().unwrap().write_all(message).unwrap();
        child.wait_with_output().unwrap().stdout[..32].try_into().unwrap()
    }

    /// RFC 1321, 3.4, says how T is made.
    #[test]
    fn table_is_the_sine() {
        for (place, &entry) in T.iter().enumerate() {
            assert_eq!(entry, (4294967296.0 * ((place + 1) as f64).sin().abs()) as u32);
        }
    }
}
