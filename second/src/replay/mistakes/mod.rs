//! The deliberate mistakes over RULES, Floor log and History of a board: each is a replay that someone might really ship. Most read a log as
//! if it were another; some play an event in another way, or print something else. `second logs` expects that its logs
//! show each.

mod histories;
mod playing;
mod reading;
mod saying;

use super::history::{self, RIGHT};
use super::unplayed::{self, Says};
use super::{Play, due_by, in_memory, play, replayed};
use crate::reference::rules::{Mistake, make};
use reading::each_line;

pub enum Wrong {
    /// The log is read as this one.
    Log(fn(&[u8]) -> Vec<u8>),
    /// A line is read as this one, or as it stands.
    Line(fn(&[u8]) -> Option<Vec<u8>>),
    /// An event is played so.
    Plays(Play),
    /// A history is played so.
    PlaysHistory(history::Steps),
    /// A line is printed so, given its number and what is told.
    Prints(fn(u64, &str) -> String),
    /// The output ends so, given what it should be.
    Ends(fn(&str) -> String),
    /// A mistake over the rules of a call that a log can show too.
    Call(Mistake),
    /// This is said on standard error.
    Says(&'static Says),
}

/// All of them, each with what it gets wrong.
pub fn all() -> impl Iterator<Item = &'static (&'static str, Wrong)> {
    reading::READING.iter().chain(playing::PLAYING).chain(histories::HISTORIES).chain(saying::SAYING)
}

/// Those over histories.
pub fn over_histories() -> &'static [(&'static str, Wrong)] {
    histories::HISTORIES
}

impl Wrong {
    /// What the mistaken replay prints.
    pub fn replayed(&self, log: &[u8]) -> Vec<u8> {
        match *self {
            Wrong::Log(read) => replayed(&read(log)),
            Wrong::Line(read) => replayed(&each_line(log, |line| read(line).unwrap_or(line.to_vec()))),
            Wrong::Plays(play) => in_memory(play, &RIGHT, None, log),
            Wrong::PlaysHistory(steps) => in_memory(play, &steps, None, log),
            Wrong::Prints(print) => {
                let printed = |line: &str| match line.split_once(' ').map(|(number, told)| (number.parse(), told)) {
                    Some((Ok(number), told)) => print(number, told) + "\n",
                    _ => line.to_string() + "\n",
                };
                ascii(replayed(log)).split_terminator('\n').map(printed).collect::<String>().into_bytes()
            }
            Wrong::Ends(end) => end(&ascii(replayed(log))).into_bytes(),
            Wrong::Call(mistake) => {
                make(Some(mistake));
                let out = replayed(log);
                make(None);
                out
            }
            Wrong::Says(says) => {
                let (due, given) = (due_by(&unplayed::RIGHT, None, log), due_by(says, None, log));
                if given == due { replayed(log) } else { format!("{given:?}").into_bytes() }
            }
        }
    }
}

fn ascii(out: Vec<u8>) -> String {
    String::from_utf8(out).expect("what is printed is ASCII")
}
