//! Mistakes in what a line is, and what its form is: the log is read as if it were another.

use super::Wrong::{self, Line, Log};
use crate::reference::text::{CR, LF};
use crate::replay::{LONGEST, event, lines, text_of};

pub const READING: &[(&str, Wrong)] = &[
    // "Lines end with LF, the last perhaps without"
    (
        "a last line without LF is dropped",
        Log(|log| lines(log).filter(|line| line.ends_with(&[LF])).flatten().copied().collect()),
    ),
    (
        "what follows the last LF is a line even where nothing does",
        Log(|log| match log {
            [.., LF] | [] => [log, b"\n"].concat(),
            _ => log.to_vec(),
        }),
    ),
    ("a CR ends a line", Log(|log| log.iter().map(|&byte| if byte == CR { LF } else { byte }).collect())),
    ("a CR before the LF is left out", Line(|line| Some(line.strip_suffix(b"\r")?.to_vec()))),
    ("a NUL ends the line's text", Line(|line| Some(line[..place_of(0, line)?].to_vec()))),
    ("an empty line is not counted", Log(|log| lines(log).filter(|line| *line != b"\n").flatten().copied().collect())),
    // "A line of no such form, with a CR in it, or over 4,096 bytes prints its number, a space and `?`"
    ("a line of 4,096 bytes is of no form", Line(|line| (line.len() == LONGEST).then(no_form))),
    ("a line of 4,097 bytes is taken", Line(|line| (line.len() == LONGEST + 1).then(|| line[..LONGEST].to_vec()))),
    ("a longer line is cut to 4,096 bytes", Line(|line| Some(line.get(..LONGEST)?.to_vec()))),
    (
        "what follows 4,096 bytes is the next line",
        Log(|log| each_line(log, |line| line.chunks(LONGEST).collect::<Vec<_>>().join(&LF))),
    ),
    ("a CR ends the text that is received", Line(|line| Some(line[..place_of(CR, line)?].to_vec()))),
    (
        "a line of no form is not counted",
        Log(|log| lines(log).filter(|line| event(text_of(line)).is_some()).flatten().copied().collect()),
    ),
    (
        "a line of no form ends the log",
        Log(|log| lines(log).take_while(|line| event(text_of(line)).is_some()).flatten().copied().collect()),
    ),
    ("a byte over 0x7E makes a line one of no form", Line(|line| line.iter().any(|&byte| byte > 0x7E).then(no_form))),
    (
        "a control character makes a line one of no form",
        Line(|line| line.iter().any(|&byte| byte < b' ').then(no_form)),
    ),
    ("white space before a line is left out", Line(|line| Some(line.trim_ascii_start().to_vec()))),
    ("white space at a line's end is left out", Line(|line| Some(line.trim_ascii_end().to_vec()))),
    (
        "letters in lower case are taken",
        Line(|line| Some([&line.first()?.to_ascii_uppercase().to_le_bytes(), &line[1..]].concat())),
    ),
    (
        "the space may be missing",
        Line(|line| match line {
            [letter @ (b'O' | b'R' | b'T'), next, ..] if *next != b' ' => Some([&[*letter, b' '], &line[1..]].concat()),
            _ => None,
        }),
    ),
    (
        "two spaces are taken for one",
        Line(|line| match line {
            [letter, b' ', b' ', rest @ ..] => Some([&[*letter, b' '], rest].concat()),
            _ => None,
        }),
    ),
    (
        "a tab is taken for the space",
        Line(|line| match line {
            [letter, b'\t', rest @ ..] => Some([&[*letter, b' '], rest].concat()),
            _ => None,
        }),
    ),
    // "`O`, a space and eight lowercase hex digits opens"
    (
        "a hex digit in upper case is taken",
        Line(|line| Some([b"O ", &line.strip_prefix(b"O ")?.to_ascii_lowercase()[..]].concat())),
    ),
    (
        "fewer than eight hex digits are taken",
        Line(|line| hex_digits(line).filter(|count| *count < 8).map(|_| opening())),
    ),
    (
        "more than eight hex digits are taken",
        Line(|line| hex_digits(line).filter(|count| *count > 8).map(|_| opening())),
    ),
    (
        "g is a hex digit",
        Line(|line| line.starts_with(b"O ").then(|| line.iter().map(|&b| if b == b'g' { b'f' } else { b }).collect())),
    ),
    // "`R`, a space and text receives it plus a CR"
    ("R alone receives an empty text", Line(|line| (line == b"R").then(|| b"R ".to_vec()))),
    ("an empty text is of no form", Line(|line| (line == b"R ").then(no_form))),
    (
        "spaces at the text's end are left out",
        Line(|line| Some([b"R ", line.strip_prefix(b"R ")?.trim_ascii_end()].concat())),
    ),
    (
        "a text is cut to 135 bytes",
        Line(|line| (line.starts_with(b"R ") && line.len() <= LONGEST).then(|| line[..line.len().min(137)].to_vec())),
    ),
    // "`T`, a space and a number passes seconds"; "the number is one to ten decimal digits, at most 4,294,967,295"
    ("eleven digits are taken", Line(|line| passing(number(line, 11, 11)?))),
    ("ten digits are of no form", Line(|line| number(line, 10, 10).map(|_| no_form()))),
    ("4,294,967,296 wraps to 0", Line(|line| passing(number(line, 10, 10)? % (1 << 32)))),
    ("a greater number passes 4,294,967,295", Line(|line| passing(number(line, 10, 10)?.min((1 << 32) - 1)))),
    ("4,294,967,295 is of no form", Line(|line| (number(line, 10, 10)? == (1 << 32) - 1).then(no_form))),
    ("the number has 31 bits", Line(|line| (number(line, 10, 10)? >= 1 << 31).then(no_form))),
    ("no digits pass no seconds", Line(|line| passing(number(line, 0, 0)?))),
    ("a leading zero is of no form", Line(|line| (number(line, 2, 10).is_some() && line[2] == b'0').then(no_form))),
    ("0 seconds are of no form", Line(|line| (number(line, 1, 10)? == 0).then(no_form))),
    ("a plus is taken", Line(|line| Some([b"T ", line.strip_prefix(b"T +")?].concat()))),
    (
        "digits end at the first other character",
        Line(|line| {
            let count = line.strip_prefix(b"T ")?.iter().take_while(|digit| digit.is_ascii_digit()).count();
            (count > 0).then(|| line[..2 + count].to_vec())
        }),
    ),
    (
        "a colon is a decimal digit",
        Line(|line| line.starts_with(b"T ").then(|| line.iter().map(|&b| if b == b':' { b'9' } else { b }).collect())),
    ),
    // "`X` closes"
    ("X closes, whatever follows it", Line(|line| line.starts_with(b"X").then(|| b"X".to_vec()))),
];

/// The log with another text in each line.
pub fn each_line(log: &[u8], other: impl Fn(&[u8]) -> Vec<u8>) -> Vec<u8> {
    let changed = lines(log).flat_map(|line| {
        let text = text_of(line);
        [other(text), line[text.len()..].to_vec()]
    });
    changed.flatten().collect()
}

fn no_form() -> Vec<u8> {
    b"?".to_vec()
}

fn opening() -> Vec<u8> {
    b"O 00000000".to_vec()
}

fn passing(seconds: u64) -> Option<Vec<u8>> {
    Some(format!("T {seconds}").into_bytes())
}

fn place_of(byte: u8, line: &[u8]) -> Option<usize> {
    line.iter().position(|&other| other == byte)
}

/// How many hex digits follow `O` and a space, if nothing else does.
fn hex_digits(line: &[u8]) -> Option<usize> {
    let digits = line.strip_prefix(b"O ")?;
    digits.iter().all(|digit| matches!(digit, b'0'..=b'9' | b'a'..=b'f')).then_some(digits.len())
}

/// The number after `T` and a space, of so many digits.
fn number(line: &[u8], fewest: usize, most: usize) -> Option<u64> {
    let digits = line.strip_prefix(b"T ")?;
    let counted = (fewest..=most).contains(&digits.len()) && digits.iter().all(u8::is_ascii_digit);
    counted.then(|| digits.iter().fold(0, |number, digit| number * 10 + u64::from(digit - b'0')))
}
