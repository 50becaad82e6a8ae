//! RFC 3629, section 3: the octets of a name, decoded into the numbers of characters that they stand for.

use super::rules::{Mistake, made, made_now};
use std::ops::RangeInclusive;

/// The RFC's table, "Char. number range" and "UTF-8 octet sequence (binary)". "The letter x indicates bits available
/// for encoding bits of the character number."
const TABLE: [(RangeInclusive<u32>, &[&[u8; 8]]); 4] = [
    (0x0000_0000..=0x0000_007F, &[b"0xxxxxxx"]),
    (0x0000_0080..=0x0000_07FF, &[b"110xxxxx", b"10xxxxxx"]),
    (0x0000_0800..=0x0000_FFFF, &[b"1110xxxx", b"10xxxxxx", b"10xxxxxx"]),
    (0x0001_0000..=0x0010_FFFF, &[b"11110xxx", b"10xxxxxx", b"10xxxxxx", b"10xxxxxx"]),
];

/// "The definition of UTF-8 prohibits encoding character numbers between U+D800 and U+DFFF".
const SURROGATES: RangeInclusive<u32> = 0xD800..=0xDFFF;

/// Whether the octets are well-formed. The standard library is asked too, on whatever is met.
pub fn is_well_formed(octets: &[u8]) -> bool {
    let characters = characters(octets);
    assert!(made_now().is_some() || characters == by_the_library(octets), "two opinions on {octets:02X?}");
    characters.is_some()
}

/// The numbers of the characters, nothing where the octets are not UTF-8. A character stands in one row of the table
/// alone, so that an overlong form, which stands in a row below its own, is none.
pub fn characters(mut octets: &[u8]) -> Option<Vec<u32>> {
    let mut numbers = Vec::new();
    while !octets.is_empty() {
        if made(Mistake::CutCharacterTaken) && is_cut(octets) {
            break;
        }
        let (number, length) = TABLE.iter().find_map(|(range, patterns)| {
            let number = available_bits(patterns, octets)?;
            (in_range(range, number) && !is_surrogate(number)).then_some((number, patterns.len()))
        })?;
        numbers.push(number);
        octets = &octets[length..];
    }
    Some(numbers)
}

/// The bits that stand where the patterns have an x, where the first octets are of these patterns.
fn available_bits(patterns: &[&[u8; 8]], octets: &[u8]) -> Option<u32> {
    if octets.len() < patterns.len() {
        return None;
    }
    let mut number = 0;
    for (pattern, octet) in patterns.iter().zip(octets) {
        for (place, &wanted) in pattern.iter().enumerate() {
            let bit = octet >> (7 - place) & 1;
            match wanted {
                b'x' => number = number << 1 | u32::from(bit),
                _ if wanted == b'0' + bit => (),
                _ => return None,
            }
        }
    }
    Some(number)
}

fn in_range(range: &RangeInclusive<u32>, number: u32) -> bool {
    let overlong = number < *range.start() && !made(Mistake::OverlongTaken);
    let past_the_last = number > *range.end() && !made(Mistake::PastTheLastTaken);
    !overlong && !past_the_last
}

fn is_surrogate(number: u32) -> bool {
    SURROGATES.contains(&number) && !made(Mistake::SurrogateTaken)
}

/// Whether these are the first octets of a character, and not all of it.
fn is_cut(octets: &[u8]) -> bool {
    let starts = |patterns: &[&[u8; 8]]| available_bits(&patterns[..octets.len()], octets).is_some();
    TABLE.iter().any(|(_, patterns)| octets.len() < patterns.len() && starts(patterns))
}

fn by_the_library(octets: &[u8]) -> Option<Vec<u32>> {
    let text = std::str::from_utf8(octets).ok()?;
    Some(text.chars().map(u32::from).collect())
}

#[cfg(test)]
mod tests {
    use super::*;
    use crate::compare::random::Random;

    /// Section 7, and the two that section 3 warns of.
    #[test]
    fn examples_of_the_rfc() {
        for (octets, numbers) in [
            (&b"\x41\xE2\x89\xA2\xCE\x91\x2E"[..], &[0x0041, 0x2262, 0x0391, 0x002E][..]),
            (b"\xED\x95\x9C\xEA\xB5\xAD\xEC\x96\xB4", &[0xD55C, 0xAD6D, 0xC5B4]),
            (b"\xE6\x97\xA5\xE6\x9C\xAC\xE8\xAA\x9E", &[0x65E5, 0x672C, 0x8A9E]),
            (b"\xEF\xBB\xBF\xF0\xA3\x8E\xB4", &[0xFEFF, 0x233B4]),
        ] {
            assert_eq!(characters(octets).as_deref(), Some(numbers));
        }
        assert_eq!(characters(b"\xC0\x80"), None);
        assert_eq!(characters(b"\xED\xA1\x8C\xED\xBE\xB4"), None);
    }

    #[test]
    fn every_character_is_decoded() {
        for character in '\0'..=char::MAX {
            let number = u32::from(character);
            assert_eq!(characters(character.encode_utf8(&mut [0; 4]).as_bytes()), Some(vec![number]), "{number:X}");
        }
    }

    #[test]
    fn the_library_agrees_to_three_bytes() {
        assert!(is_well_formed(b""));
        for string in 0u32..1 << 24 {
            let [_, first, second, third] = string.to_be_bytes();
            match (first, second) {
                (0, 0) => assert!(is_well_formed(&[third]) == (third < 0x80)),
                (0, _) => drop(is_well_formed(&[second, third])),
                _ => (),
            }
            is_well_formed(&[first, second, third]);
        }
    }

    /// The edges of each octet in every combination, every first octet with every second, and anything.
    #[test]
    fn the_library_agrees_on_four_bytes() {
        let edges = [0x00, 0x20, 0x7F, 0x80, 0x8F, 0x90, 0x9F, 0xA0, 0xBF, 0xC0, 0xC1, 0xC2, 0xDF, 0xE0, 0xE1, 0xEC];
        let edges = [&edges[..], &[0xED, 0xEE, 0xEF, 0xF0, 0xF1, 0xF3, 0xF4, 0xF5, 0xF7, 0xF8, 0xFE, 0xFF]].concat();
        for (&first, &second) in edges.iter().flat_map(|first| edges.iter().map(move |second| (first, second))) {
            for (&third, &fourth) in edges.iter().flat_map(|third| edges.iter().map(move |fourth| (third, fourth))) {
                is_well_formed(&[first, second, third, fourth]);
            }
        }
        for first_two in 0..=0xFFFFu16 {
            let [first, second] = first_two.to_be_bytes();
            is_well_formed(&[first, second, 0x80, 0xBF]);
        }
        let mut random = Random::new(3629);
        for _ in 0..2_000_000 {
            let word = random.word();
            is_well_formed(&word.to_be_bytes());
            is_well_formed(&(word & 0x073F_3F3F | 0xF080_8080).to_be_bytes());
        }
    }
}
