//! Commands of both classes and replies to them, leaving nothing to chance.

use super::replies::head;
use super::setups::all_inputs;
use crate::face::{Act, Command};

/// Each code with each field at the edges of its range, written with and without a digest.
pub fn writes() -> Vec<Act> {
    let mut all = Vec::new();
    for code in (0..=30).chain([127, 128, 254, 255]) {
        for first in (0..=8).chain([255]) {
            for second in [0, 1, 2, 8, 9, 10, 11, 34, 35, 36, 255] {
                let command = Command { code, first, second };
                let secured = (first + second) % 4 == 0;
                let (password, lent) = (b"Schnitt8".to_vec(), vec![0xA5; 168]);
                all.push(Act::Write { command, secured, random: 0x498e_4a67, password, lent });
            }
        }
    }
    for (place, input) in all_inputs().chunks(2).enumerate() {
        let number = (place % 35 + 1) as u8;
        for code in [3, 20, 22] {
            let command = Command { code, first: input[0] - b'0', second: number };
            all.push(Act::Write { command, secured: false, random: 0, password: Vec::new(), lent: vec![0xA5; 168] });
        }
    }
    all
}

/// Each command with replies of each body, of each class, with parameters that some command allows, and at their edges.
pub fn reads() -> Vec<Act> {
    let mut all = Vec::new();
    let read = |code: usize, line: Vec<u8>| {
        let command = Command { code: code as u8, first: 1, second: 1 };
        Act::ReadReply { command, line }
    };
    for (code, other) in (0..24).flat_map(|code| (0..24).map(move |other| (code, other))) {
        let (_, body) = head(other);
        for digit in *b"123" {
            let parameters = ["OK", "ERR1", "ERR2", "0", "1", "11", "6A", "11 6A"];
            let line = |parameter: &str| [&[b'%', digit], &body[..], b"=", parameter.as_bytes(), b"\r"].concat();
            all.extend(parameters.map(|parameter| read(code, line(parameter))));
        }
    }
    for code in 0..24 {
        let (digit, body) = head(code);
        let reply = |parameter: &[u8]| read(code, [&[b'%', digit], &body[..], b"=", parameter, b"\r"].concat());
        for text in parameters() {
            all.push(reply(text.as_bytes()));
        }
        (0..=130).for_each(|length| all.push(reply(&vec![b'n'; length])));
        (0..=255).for_each(|byte| all.push(reply(&[byte])));
        for byte in 0..=255 {
            all.extend([[b'1', byte], [b'6', byte], [byte, b'1'], [byte, b'A']].map(|input| reply(&input)));
        }
        for count in 0..=34 {
            let inputs: Vec<&[u8]> = all_inputs_last(count);
            all.push(reply(&inputs.join(&b' ')));
        }
        all.push(read(code, [&[b'%', digit], &body.to_ascii_lowercase()[..], b"=1\r"].concat()));
        all.push(read(code, [&[b'%', digit], &body[..], b"=1"].concat()));
        all.push(read(code, [&[b'%', digit], &body[..], b" 1\r"].concat()));
        all.push(read(code, b"PJLINK ERRA\r".to_vec()));
    }
    all
}

/// So many of the 210, the last ones, which have letters.
fn all_inputs_last(count: usize) -> Vec<&'static [u8]> {
    const INPUTS: [&[u8]; 34] = [
        b"6Z", b"6Y", b"6X", b"6W", b"6V", b"6U", b"6T", b"6S", b"6R", b"6Q", b"6P", b"6O", b"6N", b"6M", b"6L", b"6K",
        b"6J", b"6I", b"6H", b"6G", b"6F", b"6E", b"6D", b"6C", b"6B", b"6A", b"69", b"68", b"67", b"66", b"65", b"64",
        b"63", b"62",
    ];
    INPUTS[..count].to_vec()
}

fn parameters() -> Vec<&'static str> {
    vec![
        "", "OK", "ok", "OK ", "ERR", "ERR0", "ERR1", "ERR2", "ERR3", "ERR4", "ERR5", "ERRA", "err1", "ERR11", "0",
        "1", "2", "3", "4", "00", "01", "12", "?", "11", "59", "60", "69", "6A", "6a", "6Z", "7A", "0A", "A1", "5:",
        "5@", "5[", "5`", "11 ", " 11", "11 6A", "6A 6A", "11  6A", "11 6a", "11 60", "000000", "0 0", "1 1 2 0",
    ]
}
