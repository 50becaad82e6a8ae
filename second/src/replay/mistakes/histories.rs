//! Mistakes in what a history is, in where it ends, and in what is printed of it.

use super::Wrong::{self, Call, Ends, PlaysHistory};
use crate::reference::recorded::{self, Why};
use crate::reference::rules::Mistake;
use crate::replay::history::{RIGHT, Steps, is_history};
use crate::replay::text_of;

pub const HISTORIES: &[(&str, Wrong)] = &[
    // "if its first line begins with the four bytes `LOG `"
    ("no log is a history", PlaysHistory(Steps { is_history: |_| false, ..RIGHT })),
    (
        "a log whose first line is LOG alone is a history",
        PlaysHistory(Steps { is_history: is_of_three_bytes, ..RIGHT }),
    ),
    ("a log whose first line begins with log is a history", PlaysHistory(Steps { is_history: in_any_case, ..RIGHT })),
    (
        "a log whose first line is a damaged header is none",
        PlaysHistory(Steps { is_history: |first| recorded::lines::entry(text_of(first)).is_some(), ..RIGHT }),
    ),
    (
        "a log of another version is none",
        PlaysHistory(Steps { is_history: |first| first.starts_with(b"LOG 2 "), ..RIGHT }),
    ),
    // "What stands behind the last LF of a file was cut, and is no line."
    ("a line that was cut is played", PlaysHistory(Steps { text: |line| Some(text_of(line)), ..RIGHT })),
    ("a line that was cut is passed over", PlaysHistory(Steps { passes_over: |why| why == Why::Unended, ..RIGHT })),
    // "The history does not belong to that record if a call is refused, .. or if a line says nothing."
    (
        "a refused call is passed over",
        PlaysHistory(Steps { passes_over: |why| matches!(why, Why::Refused(_)), ..RIGHT }),
    ),
    (
        "a line that says nothing is passed over",
        PlaysHistory(Steps { passes_over: |why| why == Why::SaysNothing, ..RIGHT }),
    ),
    (
        "an opening that gets another place is passed over",
        PlaysHistory(Steps { passes_over: |why| why == Why::OtherPlace, ..RIGHT }),
    ),
    ("an opening may get another place than its line says", Call(Mistake::OtherPlaceTaken)),
    // "the header of file 1 has the sum of the form"
    ("the sum of file 1 is that of no form", PlaysHistory(Steps { begun: |_| recorded::Log::begun(b""), ..RIGHT })),
    ("a gap in a chain is passed over", Call(Mistake::GapPassedOver)),
    ("a header's sum is not compared", Call(Mistake::HeaderNotCompared)),
    ("the sum is taken over the file alone", Call(Mistake::SumOfTheFile)),
    ("the sum leaves out the line ends", Call(Mistake::SumWithoutLineEnds)),
    ("a header is counted as a line", Call(Mistake::HeaderCounted)),
    ("a stated line is not counted", Call(Mistake::StatedNotCounted)),
    ("the count of lines goes on in the next file", Call(Mistake::CountGoesOn)),
    // "12 lines came since the header, the sum, and what `replay` prints last of the record as it is here"
    ("a stated line is not compared", Call(Mistake::StatedNotCompared)),
    ("a stated line's count is not compared", Call(Mistake::CountNotCompared)),
    ("a stated line's sum is not compared", Call(Mistake::SumNotCompared)),
    ("a stated line's power and seconds are not compared", Call(Mistake::StateNotCompared)),
    // the lines
    ("a line of the fault mark changes nothing", Call(Mistake::FaultLineIgnored)),
    ("F 1 clears the fault mark", Call(Mistake::FaultLineTurned)),
    ("a history counts lamps from 0", Call(Mistake::LampsRecordedFrom0)),
    ("hex that says a line of a controller is taken", Call(Mistake::TextInHexTaken)),
    ("a line may have zeros before a number", Call(Mistake::LeadingZerosTaken)),
    ("a line may have hexadecimal digits in upper case", Call(Mistake::UpperCaseTaken)),
    ("a space at a line's end is passed over", Call(Mistake::SpaceAtTheEndTaken)),
    ("a CR at a line's end is passed over", Call(Mistake::CrAtTheEndTaken)),
    // "At the end the line `power P lamps ..` .. and then, if a line did not belong, one last line"
    ("a line that does not belong is not told", Ends(|out| without_stray(out, |_| String::new()))),
    (
        "a line that does not belong is counted from 0",
        Ends(|out| {
            without_stray(out, |words| {
                let (number, why) = words.strip_prefix("! line ").and_then(|words| words.split_once(':')).expect("so");
                format!("! line {}:{why}\n", number.parse::<u64>().expect("a number") - 1)
            })
        }),
    ),
    (
        "what does not belong is told before power and lamps",
        Ends(|out| match out.trim_end().rsplit_once("\n! line ") {
            Some((before, words)) => {
                let place = before.rfind("power ").expect("it is printed");
                format!("{}! line {words}\n{}\n", &before[..place], &before[place..])
            }
            None => out.to_string(),
        }),
    ),
];

fn is_of_three_bytes(first: &[u8]) -> bool {
    first.starts_with(b"LOG")
}

fn in_any_case(first: &[u8]) -> bool {
    is_history(&first.to_ascii_uppercase())
}

/// What is printed with its last line, if it tells of a line that does not belong, said so.
fn without_stray(out: &str, said: impl Fn(&str) -> String) -> String {
    match out.trim_end().rsplit_once('\n') {
        Some((before, words)) if words.starts_with("! line ") => format!("{before}\n{}", said(words)),
        _ => out.to_string(),
    }
}
