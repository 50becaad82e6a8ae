//! RULES, History of a board: "every call that can change its record, at whatever place, as it was made", as lines of
//! text. `lines` has the line of each entry, and what a line says; `crc` the sum; `chain` where a line belongs, and the
//! calls made again; `calls` the calls of a host (include/ceiling.h, "The recorded log"); `kept` what a host records.

pub mod calls;
pub mod chain;
pub mod crc;
pub mod kept;
pub mod lines;
#[cfg(test)]
mod tests;

pub use crate::face::Log;
use std::fmt;

/// A call that a line says was made. Places and lamps are numbered from 0.
#[derive(Clone, PartialEq, Eq, Debug)]
pub enum Call {
    Opened { place: usize, random: u32 },
    Received { place: usize, bytes: Vec<u8> },
    Passed(u32),
    Closed { place: usize },
    Fault(bool),
    Errors([u8; 6]),
    Mark { lamp: usize, enabled: bool },
}

/// What a line says.
#[derive(Clone, PartialEq, Eq, Debug)]
pub enum Entry {
    /// "the file's number in the chain, from 1 to 4,294,967,295, and the sum", "perhaps a space and a start time"; no
    /// time is an empty one.
    Header {
        file: u32,
        sum: u32,
        time: Vec<u8>,
    },
    Call(Call),
    /// "12 lines came since the header, the sum, and what `replay` prints last of the record as it is here".
    Stated {
        lines: u32,
        sum: u32,
        shown: Vec<u8>,
    },
}

/// Why a line does not belong to the history.
#[derive(Clone, Copy, PartialEq, Eq, Debug)]
pub enum Why {
    Unended,
    SaysNothing,
    OtherFile,
    OtherSum,
    OtherCount,
    OtherState,
    OtherPlace,
    Refused(u32),
}

impl fmt::Display for Why {
    fn fmt(&self, f: &mut fmt::Formatter) -> fmt::Result {
        f.write_str(match self {
            Why::Unended => "no line end",
            Why::SaysNothing => "no such line",
            Why::OtherFile => "not the next file",
            Why::OtherSum => "another sum",
            Why::OtherCount => "another count of lines",
            Why::OtherState => "the record shows something else",
            Why::OtherPlace => "another place was opened",
            Why::Refused(number) => return write!(f, "refused with {number}"),
        })
    }
}
