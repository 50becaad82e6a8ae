//! RULES, The programs: what is said on standard error of a log that was read to its end. Of a history that is its first
//! line that does not belong; of a log of the first kind, which lines are not understood and which calls are refused.

use super::LONGEST;
use crate::reference::text::CR;

/// A line of a log of the first kind that was not played.
#[derive(Clone)]
pub struct Note {
    /// Its number, from 1.
    pub number: u64,
    pub line: Vec<u8>,
    /// The number that its call gives; none where it is not understood.
    pub refused: Option<u32>,
}

/// What a program says, so that a mistake can say something else.
#[derive(Clone, Copy)]
pub struct Says {
    /// What is said of a line behind its number.
    pub why: fn(&[u8]) -> &'static str,
    /// Whether a line is one that only a history has.
    pub is_of_history: fn(&[u8]) -> bool,
    /// The notes as they are counted.
    pub counts: fn(Vec<Note>) -> Vec<Note>,
}

pub const RIGHT: Says = Says { why, is_of_history, counts: |notes| notes };

/// The words for a log of which these lines were not played; none where all were.
pub fn words(says: &Says, notes: Vec<Note>) -> String {
    let notes = (says.counts)(notes);
    let (refused, misread): (Vec<&Note>, Vec<&Note>) = notes.iter().partition(|note| note.refused.is_some());
    let mut words = String::new();
    if misread.iter().any(|note| (says.is_of_history)(&note.line)) {
        words += "the log has lines of a history, and no header: it is read as a log of the other kind\n";
    }
    if let Some(first) = misread.first() {
        words +=
            &format!("lines not understood: {}; line {}{}\n", misread.len(), first.number, (says.why)(&first.line));
    }
    if let Some((first, number)) = refused.first().and_then(|first| first.refused.map(|number| (first, number))) {
        let reason = reason(number);
        words += &format!("calls refused: {}; line {}: {reason} ({number})\n", refused.len(), first.number);
    }
    words
}

/// "The numbers a call gives", of those that a line can give.
fn reason(number: u32) -> &'static str {
    match number {
        3 => "an argument is out of its range",
        4 => "the connection at that place is closed",
        5 => "place 0 is not closed",
        7 => "the power is not off",
        _ => panic!("no line of a log is refused with {number}"),
    }
}

/// "a line that begins as a header, an opening or a stated line of a history".
pub fn is_of_history(line: &[u8]) -> bool {
    let is_opening =
        |line: &[u8]| line.len() > 3 && line.starts_with(b"O ") && line[3] == b' ' && line[2].wrapping_sub(b'0') < 4;
    let is_stated = line.strip_prefix(b"S ").and_then(<[u8]>::first).is_some_and(u8::is_ascii_digit);
    line.starts_with(b"LOG ") || is_opening(line) || is_stated
}

/// What may hold of a line, and what is said of it then.
type Reason = (fn(&[u8]) -> bool, &'static str);

/// Why a line is not understood: the first of these that holds of it.
pub fn why(line: &[u8]) -> &'static str {
    const REASONS: [Reason; 13] = [
        (is_of_history, " is of a history, and no header stands before it"),
        (|line| line.len() > LONGEST, ": longer than 4,096 bytes"),
        (|line| line.starts_with("\u{feff}".as_bytes()), ": a byte order mark before it"),
        (|line| line.last() == Some(&CR), " ends with CR: is this a file with CRLF line ends?"),
        (|line| line.contains(&CR), ": a CR in it"),
        (<[u8]>::is_empty, " is empty"),
        (|line| line[0] == 0, " begins with a NUL: is this a text?"),
        (|line| line.starts_with(b"O "), ": eight lowercase hex digits wanted"),
        (|line| line.starts_with(b"T "), ": one to ten digits wanted, at most 4,294,967,295"),
        (|line| line.starts_with(b"M "), ": M, a lamp 1 to 9, and 0 or 1, is for burnt alone"),
        (|line| line[0] == b'X', ": X stands alone"),
        (|line| b"ORTM".contains(&line[0]), ": a space wanted behind the letter"),
        (|line| line[0] == b'[' || line[0].is_ascii_digit(), " begins with a digit: is it a time stamp?"),
    ];
    REASONS.iter().find(|(holds, _)| holds(line)).map_or(" begins with none of O, R, T and X", |(_, words)| words)
}

/// `MISTAKES` as those of a kind of wrong program that has a case for what is said.
macro_rules! all_said {
    ($wrong:ident) => {{
        use $crate::replay::unplayed::{MISTAKES, RIGHT};
        &{
            let mut all = [const { ("", $wrong::Says(&RIGHT)) }; MISTAKES.len()];
            let mut place = 0;
            while place < MISTAKES.len() {
                all[place] = (MISTAKES[place].0, $wrong::Says(&MISTAKES[place].1));
                place += 1;
            }
            all
        }
    }};
}
pub(crate) use all_said;

/// Programs that say something else, each with what it gets wrong.
pub const MISTAKES: &[(&str, Says)] = &[
    (
        "an empty line is passed over in silence",
        Says {
            counts: |notes| notes.into_iter().filter(|note| note.refused.is_some() || !note.line.is_empty()).collect(),
            ..RIGHT
        },
    ),
    (
        "the last line that is not understood is named, and not the first",
        Says { counts: |notes| notes.into_iter().rev().collect(), ..RIGHT },
    ),
    (
        "a refused call counts as a line that is not understood",
        Says { counts: |notes| notes.into_iter().map(|note| Note { refused: None, ..note }).collect(), ..RIGHT },
    ),
    (
        "a refused call is passed over in silence",
        Says { counts: |notes| notes.into_iter().filter(|note| note.refused.is_none()).collect(), ..RIGHT },
    ),
    (
        "a second opening is no refused call",
        Says { counts: |notes| notes.into_iter().filter(|note| note.refused != Some(5)).collect(), ..RIGHT },
    ),
    (
        "the lines that were not played are numbered, and not those of the log",
        Says { counts: |notes| (1..).zip(notes).map(|(number, note)| Note { number, ..note }).collect(), ..RIGHT },
    ),
    (
        "a line's number has 16 bits in what is said",
        Says {
            counts: |notes| notes.into_iter().map(|note| Note { number: note.number & 0xFFFF, ..note }).collect(),
            ..RIGHT
        },
    ),
    ("CRLF is taken for any CR", Says { why: |line| unless(line, " ends with CR", ": a CR in it"), ..RIGHT }),
    (
        "a byte order mark is taken for a letter",
        Says { why: |line| unless(line, ": a byte order", " begins with none of O, R, T and X"), ..RIGHT },
    ),
    (
        "a time stamp is not asked for",
        Says { why: |line| unless(line, " begins with a digit", " begins with none of O, R, T and X"), ..RIGHT },
    ),
    (
        "a long line is told by its letter",
        Says { why: |line| if line.len() > LONGEST { why(&line[..LONGEST]) } else { why(line) }, ..RIGHT },
    ),
    (
        "NULs are taken for a letter",
        Says { why: |line| unless(line, " begins with a NUL", " begins with none of O, R, T and X"), ..RIGHT },
    ),
    (
        "a header that is lost is seen by a header alone",
        Says { is_of_history: |line| line.starts_with(b"LOG "), ..RIGHT },
    ),
];

/// The words for a line, but others where they begin so.
fn unless(line: &[u8], these: &str, others: &'static str) -> &'static str {
    let words = why(line);
    if words.starts_with(these) { others } else { words }
}
