//! The line of an entry, and what a line says: "a line says one entry, the one that it was written for, or none". So it is
//! read loosely, and says what was read exactly if that is written so.

use super::{Call, Entry};
use crate::face::PLACES;
use crate::reference::rules::{Mistake, made};
use crate::reference::set_up::MOST_LAMPS;
use crate::reference::text::CR;

/// "printable ASCII, of 4,096 bytes at most".
pub const LONGEST: usize = 4096;

/// "A call receives 2,046 bytes at most."
pub const MOST_BYTES: usize = 2046;

/// "A start time is 1 to 35 characters".
const LONGEST_TIME: usize = 35;

/// The line that says it, without its LF; none where no line can.
pub fn text(entry: &Entry) -> Option<Vec<u8>> {
    match entry {
        Entry::Header { file: 0, .. } => None,
        Entry::Header { file, sum, time } => {
            let time = if time.is_empty() { Vec::new() } else { [b" ", time_of(time)?].concat() };
            Some([format!("LOG 2 {file} {}", hex(*sum)).as_bytes(), &time].concat())
        }
        Entry::Stated { lines, sum, shown } => {
            let line = [format!("S {lines} {} ", hex(*sum)).as_bytes(), shown].concat();
            let is_line = line.iter().all(|byte| is_printable(*byte)) && !line.ends_with(b" ");
            (is_line && line.len() <= LONGEST).then_some(line)
        }
        Entry::Call(call) => text_of_call(call),
    }
}

fn text_of_call(call: &Call) -> Option<Vec<u8>> {
    Some(match call {
        Call::Opened { place, random } if made(Mistake::RandomNotPadded) => {
            format!("O {} {random:x}", place_of(*place)?).into_bytes()
        }
        Call::Opened { place, random } => format!("O {} {}", place_of(*place)?, hex(*random)).into_bytes(),
        Call::Received { place, bytes } => received(place_of(*place)?, bytes)?,
        Call::Passed(seconds) => format!("T {seconds}").into_bytes(),
        Call::Closed { place } => format!("X {}", place_of(*place)?).into_bytes(),
        Call::Fault(mark) => format!("F {}", u8::from(*mark != made(Mistake::FaultLineTurned))).into_bytes(),
        Call::Errors(digits) => {
            let most = if made(Mistake::ThreeRecorded) { 3 } else { 2 };
            let digits = digits.map(|digit| (digit <= most).then(|| char::from(b'0' + digit)));
            let digits: String = digits.into_iter().collect::<Option<_>>()?;
            format!("E {digits}").into_bytes()
        }
        Call::Mark { lamp, enabled } => {
            let most = if made(Mistake::NinthLampRecorded) { MOST_LAMPS + 1 } else { MOST_LAMPS };
            let number = if made(Mistake::LampsRecordedFrom0) { lamp } else { &(lamp.checked_add(1)?) };
            (*lamp < most).then(|| format!("M {number} {}", u8::from(*enabled)))?.into_bytes()
        }
    })
}

/// "Places are 0 to 3."
fn place_of(place: usize) -> Option<usize> {
    match () {
        _ if made(Mistake::AnyPlaceRecorded) => Some(place % 10),
        _ if made(Mistake::PlaceNotRecorded) => (place < PLACES).then_some(0),
        _ => (place < PLACES).then_some(place),
    }
}

/// "`R` says what is one line of a controller .. `B` says all else, and never that."
fn received(place: usize, bytes: &[u8]) -> Option<Vec<u8>> {
    let is_text = is_line_of_a_controller(bytes);
    let most = if is_text && made(Mistake::OneByteMoreRecorded) { MOST_BYTES + 1 } else { MOST_BYTES };
    if bytes.len() > most {
        return None;
    }
    if is_text && !made(Mistake::TextRecordedInHex) {
        return Some([format!("R {place} ").as_bytes(), &bytes[..bytes.len() - 1]].concat());
    }
    let digits: String = bytes.iter().map(|byte| format!("{byte:02x}")).collect();
    let digits = if made(Mistake::BytesInUpperCase) { digits.to_uppercase() } else { digits };
    Some(if digits.is_empty() { format!("B {place}") } else { format!("B {place} {digits}") }.into_bytes())
}

/// "characters 0x20 to 0x7e, at least one, the last of them no space, and one CR".
fn is_line_of_a_controller(bytes: &[u8]) -> bool {
    let Some((&CR, text)) = bytes.split_last() else { return false };
    let Some(&last) = text.last() else { return made(Mistake::EmptyTextRecorded) };
    text.iter().all(|byte| is_printable(*byte)) && (last != b' ' || made(Mistake::SpaceEndsAText))
}

fn is_printable(byte: u8) -> bool {
    (0x20..=0x7e).contains(&byte)
}

/// "1 to 35 characters `!` to `~`".
fn time_of(time: &[u8]) -> Option<&[u8]> {
    let first = if made(Mistake::TimeWithSpaces) { b' ' } else { b'!' };
    let longest = if made(Mistake::LongerTime) { LONGEST_TIME + 1 } else { LONGEST_TIME };
    (time.len() <= longest && time.iter().all(|byte| (first..=b'~').contains(byte))).then_some(time)
}

/// "The digits of a sum, of a random number and of bytes are eight or two each, hexadecimal, `0` to `9` and `a` to `f`."
fn hex(number: u32) -> String {
    format!("{number:08x}")
}

/// What a line says, which is lent without its LF, or none.
pub fn entry(line: &[u8]) -> Option<Entry> {
    if line.len() > LONGEST {
        return None;
    }
    let entry = read_loosely(line)?;
    let written = text(&entry)?;
    let forgiven = || match () {
        _ if made(Mistake::LeadingZerosTaken) => without_zeros(line) == written,
        _ if made(Mistake::UpperCaseTaken) => lower_hex(line) == written,
        _ if made(Mistake::SpaceAtTheEndTaken) => line.trim_ascii_end() == written,
        _ if made(Mistake::CrAtTheEndTaken) => line.strip_suffix(&[CR]) == Some(&written),
        _ if made(Mistake::TextInHexTaken) => line.starts_with(b"B ") && written.starts_with(b"R "),
        _ => false,
    };
    (written == line || forgiven()).then_some(entry)
}

fn read_loosely(line: &[u8]) -> Option<Entry> {
    let line = if made(Mistake::CrAtTheEndTaken) { line.strip_suffix(&[CR]).unwrap_or(line) } else { line };
    let line = if made(Mistake::SpaceAtTheEndTaken) { line.trim_ascii_end() } else { line };
    let (kind, rest) = part(line)?;
    let (first, more) = part(rest).map_or((rest, None), |(first, more)| (first, Some(more)));
    Some(Entry::Call(match (kind, more) {
        (b"LOG", Some(more)) if first == b"2" => {
            let (file, more) = part(more)?;
            let (sum, time) = part(more).unwrap_or((more, b""));
            return Some(Entry::Header { file: number(file)?, sum: hex_number(sum)?, time: time.to_vec() });
        }
        (b"S", Some(more)) => {
            let (sum, shown) = part(more)?;
            return Some(Entry::Stated { lines: number(first)?, sum: hex_number(sum)?, shown: shown.to_vec() });
        }
        (b"O", Some(random)) => Call::Opened { place: number(first)? as usize, random: hex_number(random)? },
        (b"R", Some(text)) => Call::Received { place: number(first)? as usize, bytes: [text, &[CR]].concat() },
        (b"B", digits) => {
            let digits = digits.unwrap_or_default().chunks(2);
            let bytes = digits.map(|two| hex_number(two).map(|byte| byte as u8)).collect::<Option<_>>()?;
            Call::Received { place: number(first)? as usize, bytes }
        }
        (b"T", None) => Call::Passed(number(first)?),
        (b"X", None) => Call::Closed { place: number(first)? as usize },
        (b"F", None) => Call::Fault(number(first)? == u32::from(!made(Mistake::FaultLineTurned))),
        (b"E", None) => {
            let digits = <[u8; 6]>::try_from(first).ok()?;
            Call::Errors(digits.map(|digit| digit.wrapping_sub(b'0')))
        }
        (b"M", Some(mark)) => {
            let from = u32::from(!made(Mistake::LampsRecordedFrom0));
            Call::Mark { lamp: number(first)?.checked_sub(from)? as usize, enabled: mark != b"0" }
        }
        _ => return None,
    }))
}

/// What stands before the first space, and what stands after it.
fn part(text: &[u8]) -> Option<(&[u8], &[u8])> {
    let place = text.iter().position(|&byte| byte == b' ')?;
    Some((&text[..place], &text[place + 1..]))
}

fn number(digits: &[u8]) -> Option<u32> {
    let are_digits = (1..=20).contains(&digits.len()) && digits.iter().all(u8::is_ascii_digit);
    are_digits.then(|| str::from_utf8(digits).ok()?.parse().ok())?
}

fn hex_number(digits: &[u8]) -> Option<u32> {
    let are_digits = (1..=8).contains(&digits.len()) && digits.iter().all(u8::is_ascii_hexdigit);
    are_digits.then(|| u32::from_str_radix(str::from_utf8(digits).ok()?, 16).ok())?
}

/// For a mistake: the line with the zeros before its first number left out.
fn without_zeros(line: &[u8]) -> Vec<u8> {
    let before = if line.starts_with(b"LOG 2 ") { 6 } else { 2 };
    let (start, number) = line.split_at(before.min(line.len()));
    let zeros = number.iter().take_while(|&&digit| digit == b'0').count();
    let ends = number.get(zeros).is_none_or(|byte| !byte.is_ascii_digit());
    [start, &number[zeros - usize::from(zeros > 0 && ends)..]].concat()
}

/// For a mistake: the line with hexadecimal digits in lower case.
fn lower_hex(line: &[u8]) -> Vec<u8> {
    match line {
        [b'O' | b'B' | b'S', rest @ ..] => [&line[..1], &rest.to_ascii_lowercase()].concat(),
        [b'L', b'O', b'G', rest @ ..] => [b"LOG", &rest.to_ascii_lowercase()[..]].concat(),
        _ => line.to_vec(),
    }
}
