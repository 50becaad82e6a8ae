//! Names (RULES, Texts): UTF-8 of every kind, and what is not quite UTF-8.

use super::random::Random;
use std::collections::BTreeSet;

const LONGEST: usize = 64;

/// The first and the last characters of each length, those beside the surrogates, and some that people trip over.
const EDGES: [&[char]; 4] = [
    &[' ', '~', '\u{7F}'],
    &['\u{80}', '\u{9F}', '\u{A0}', '\u{7FF}'],
    &['\u{800}', '\u{FFF}', '\u{1000}', '\u{D7FF}', '\u{E000}', '\u{FEFF}', '\u{FFFD}', '\u{FFFE}', '\u{FFFF}'],
    &['\u{10000}', '\u{3FFFF}', '\u{40000}', '\u{FFFFF}', '\u{100000}', '\u{10FFFF}'],
];

/// What RFC 3629 forbids, each just past what it allows.
const FORBIDDEN: &[&[u8]] = &[
    // the second octet and later ones of a character, by themselves
    b"\x80",
    b"\xBF",
    b"\x80\xBF",
    // overlong forms: of U+0000, U+0020 and U+007F, U+0000 and U+07FF, U+0000 and U+FFFF
    b"\xC0\x80",
    b"\xC0\xA0",
    b"\xC1\xBF",
    b"\xE0\x80\x80",
    b"\xE0\x9F\xBF",
    b"\xF0\x80\x80\x80",
    b"\xF0\x8F\xBF\xBF",
    // surrogates, and the RFC's own pair of them
    b"\xED\xA0\x80",
    b"\xED\xAF\xBF",
    b"\xED\xB0\x80",
    b"\xED\xBF\xBF",
    b"\xED\xA1\x8C\xED\xBE\xB4",
    // over U+10FFFF; the five and six octets that older definitions had; octets that never appear
    b"\xF4\x90\x80\x80",
    b"\xF5\x80\x80\x80",
    b"\xF7\xBF\xBF\xBF",
    b"\xF8\x88\x80\x80\x80",
    b"\xFC\x84\x80\x80\x80\x80",
    b"\xFE",
    b"\xFF",
    // cut
    b"\xC2",
    b"\xDF",
    b"\xE0",
    b"\xE0\xA0",
    b"\xEF\xBF",
    b"\xF0",
    b"\xF0\x90",
    b"\xF0\x90\x80",
    b"\xF4\x8F\xBF",
];

/// One octet at the edges of those that a rule tells apart.
const OCTETS: &[u8] = &[0x20, 0x7F, 0x80, 0x8F, 0x90, 0x9F, 0xA0, 0xBF, 0xC0, 0xC2, 0xFF];

/// A legal name or one that is not, about as often.
pub fn any(random: &mut Random) -> Vec<u8> {
    if random.one_in(2) { legal(random) } else { wrong(random) }
}

pub fn legal(random: &mut Random) -> Vec<u8> {
    let length = random.length_to(LONGEST);
    match random.below(12) {
        0 => random.pick(&["ERR5", "ERR0", "err1", "ERR", "ERR11", "OK", "?", "ＥＲＲ１", "\u{FEFF}ERR1"]).into(),
        1 => {
            let bytes = random.from_to(1, 4);
            let character = character(random, bytes);
            character.to_string().repeat(length / bytes).into_bytes()
        }
        _ => of_length(random, length),
    }
}

/// So many bytes of characters, of every length or as far as possible of one.
pub fn of_length(random: &mut Random, length: usize) -> Vec<u8> {
    let (fewest, most) = random.pick(&[(1, 1), (2, 2), (3, 3), (4, 4), (1, 2), (1, 3), (1, 4), (1, 4)]);
    let mut name = String::new();
    while name.len() < length {
        let left = length - name.len();
        let bytes = random.from_to(fewest.min(left), most.min(left));
        name.push(character(random, bytes));
    }
    name.into_bytes()
}

/// A character of so many bytes, none under U+0020.
fn character(random: &mut Random, bytes: usize) -> char {
    if random.one_in(4) {
        return random.pick(EDGES[bytes - 1]);
    }
    let (first, last) = [(0x20, 0x7F), (0x80, 0x7FF), (0x800, 0xFFFF), (0x1_0000, 0x10_FFFF)][bytes - 1];
    loop {
        if let Some(character) = char::from_u32(random.from_to(first, last) as u32) {
            return character;
        }
    }
}

/// Names of which few are legal.
pub fn wrong(random: &mut Random) -> Vec<u8> {
    let mut name = legal(random);
    match random.below(16) {
        0 | 1 => {
            let forbidden = random.pick(FORBIDDEN);
            put_in(random, name, forbidden)
        }
        2 | 3 => {
            let forbidden = by_the_pattern(random);
            put_in(random, name, &forbidden)
        }
        4 => {
            let control = random.pick(&[b"\0", b"\t", b"\n", b"\r", b"\x1B", b"\x1F"]);
            put_in(random, name, control)
        }
        5 | 6 => cut(random, LONGEST),
        7 => {
            let length = random.from_to(1, LONGEST);
            cut(random, length)
        }
        8 | 9 => {
            change(random, &mut name);
            name
        }
        10 | 11 => {
            random.damage(&mut name);
            name
        }
        12 => random.bytes_from(0x20, name.len()),
        13 => random.pick(&["ERR1", "ERR2", "ERR3", "ERR4"]).into(),
        14 => of_length(random, LONGEST + 1),
        _ => {
            let length = random.pick(&[66, 67, 68, 127, 128, 129, 192, 256, 256 + 32]);
            of_length(random, length)
        }
    }
}

/// A surrogate, a number in more octets than it needs, or one over U+10FFFF, with its bits where the pattern has them.
fn by_the_pattern(random: &mut Random) -> Vec<u8> {
    let (number, octets) = match random.below(5) {
        0 => (random.from_to(0xD800, 0xDFFF), 3),
        1 => (random.below(0x80), 2),
        2 => (random.below(0x800), 3),
        3 => (random.below(0x1_0000), 4),
        _ => (random.from_to(0x11_0000, 0x1F_FFFF), 4),
    };
    let mut written: Vec<u8> = (0..octets).rev().map(|after| 0x80 | (number >> (6 * after) & 0x3F) as u8).collect();
    written[0] |= [0xC0, 0xE0, 0xF0][octets - 2];
    written
}

/// The piece before, after or between the characters of a name, which loses its last ones where there is no room.
fn put_in(random: &mut Random, name: Vec<u8>, piece: &[u8]) -> Vec<u8> {
    let mut characters: Vec<char> = String::from_utf8(name).expect("a legal name").chars().collect();
    while characters.iter().map(|character| character.len_utf8()).sum::<usize>() + piece.len() > LONGEST {
        characters.pop();
    }
    let any = random.below(characters.len() + 1);
    let (before, after) = characters.split_at(random.pick(&[0, any, characters.len()]));
    [before.iter().collect::<String>().as_bytes(), piece, after.iter().collect::<String>().as_bytes()].concat()
}

/// So many bytes, the last of them in the middle of a character.
fn cut(random: &mut Random, length: usize) -> Vec<u8> {
    let bytes = random.from_to(2, 4);
    let kept = random.from_to(1, bytes - 1).min(length);
    let mut name = of_length(random, length - kept);
    name.extend_from_slice(&character(random, bytes).to_string().as_bytes()[..kept]);
    name
}

/// One byte replaced.
fn change(random: &mut Random, name: &mut [u8]) {
    if !name.is_empty() {
        let place = random.below(name.len());
        name[place] = match random.below(3) {
            0 => random.pick(OCTETS),
            1 => name[place] ^ 1 << random.below(8),
            _ => random.from_to(0x20, 0xFF) as u8,
        };
    }
}

/// Names that leave nothing to chance. Each character at an edge and each forbidden piece: alone, before, between and
/// after other characters, and at the end of 64 and of 65 bytes. Each octet alone. Each octet that may begin a
/// character of several, or looks as if, with each second one at an edge, and with as many others as it asks for, one
/// fewer and one more.
pub fn every() -> BTreeSet<Vec<u8>> {
    let mut names: BTreeSet<Vec<u8>> = (0..=0xFF).map(|octet| vec![octet]).collect();
    let edges = EDGES.concat().into_iter().map(|character| character.to_string().into_bytes());
    for piece in edges.chain(FORBIDDEN.iter().map(|piece| piece.to_vec())) {
        for (before, after) in [("", ""), ("", "A"), ("A", ""), ("é", "日"), ("日", "é")] {
            names.insert([before.as_bytes(), &piece, after.as_bytes()].concat());
        }
        for length in [64, 65] {
            names.insert(["n".repeat(length - piece.len()).as_bytes(), &piece].concat());
        }
    }
    for first in [0x7F, 0x80, 0xBF].into_iter().chain(0xC0..=0xFFu8) {
        let asked = (first.leading_ones() as usize).clamp(2, 6) - 2;
        for &second in OCTETS {
            for (count, octet) in [(asked, 0x80), (asked, 0xBF), (asked.saturating_sub(1), 0x80), (asked + 1, 0x80)] {
                names.insert([vec![first, second], vec![octet; count]].concat());
            }
        }
    }
    names
}

#[cfg(test)]
mod tests {
    use super::*;
    use crate::face::{Command, Device, Lent};
    use crate::reference::calls;

    const ASKS_NAME: Command = Command { code: 9, first: 0, second: 0 };

    /// The three that the RFC names, and nothing that is right.
    #[test]
    fn patterns_without_the_rules_are_wrong() {
        let mut random = Random::new(3);
        let written: BTreeSet<Vec<u8>> = (0..100_000).map(|_| by_the_pattern(&mut random)).collect();
        assert!(written.iter().all(|octets| std::str::from_utf8(octets).is_err()));
        assert!(["\u{7FF}", "\u{FFFF}"].iter().all(|right| !written.contains(right.as_bytes())));
        let surrogates = written.iter().filter(|octets| octets[0] == 0xED).count();
        let low = written.iter().filter(|octets| octets[0] == 0xC0 || octets[0] == 0xC1).count();
        assert_eq!((surrogates, low), (0x800, 0x80));
    }

    #[test]
    fn legal_names_are_text_of_at_most_64_bytes() {
        let mut random = Random::new(1);
        for _ in 0..20_000 {
            let name = legal(&mut random);
            assert!(name.len() <= 64 && name.iter().all(|&byte| byte >= 0x20), "{name:02X?}");
            assert!(String::from_utf8(name).is_ok());
        }
    }

    /// RULES, Texts: "State that a name the projector accepts is one that our reader accepts." And the other way round,
    /// but for what the reader takes for a refusal.
    #[test]
    fn what_the_projector_accepts_the_reader_accepts() {
        let mut random = Random::new(2);
        let mut taken = 0;
        for name in every().into_iter().chain((0..20_000).map(|_| any(&mut random))) {
            let lent = Lent { name: name.clone(), inputs: b"11".to_vec(), warm: 1, cool: 1, ..Lent::default() };
            let reading = calls::read_reply(ASKS_NAME, &[b"%1NAME=", &name[..], b"\r"].concat());
            let set_up = calls::set_up(&lent);
            assert_eq!(set_up.number == 0, reading.kind == 9, "{name:02X?}");
            if set_up.number == 0 {
                taken += 1;
                assert_eq!((reading.count, &reading.text[..name.len()]), (name.len(), &name[..]));
                let opened = calls::open(&set_up.device, 0, &mut [0; 136]).device;
                let mut memory = [0; 136];
                let received = calls::receive(&opened, 0, b"%1NAME ?\r", &mut memory);
                assert_eq!(calls::read_reply(ASKS_NAME, &memory[..received.length]), reading);
            } else {
                assert_eq!(set_up.device, Device::BLANK);
                assert_eq!(calls::which_setting(&lent), 1);
            }
        }
        assert!(taken > 10_000, "{taken}");
    }
}
