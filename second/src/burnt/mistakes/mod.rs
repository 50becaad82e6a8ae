//! The deliberate mistakes: each is a `burnt` that someone might really ship, and a few are a `replay` on a stored
//! form. `second burnts` and `second replays` expect that their logs show each.

mod list;
mod saying;

pub use list::{BURNT, REPLAY};
pub use saying::SAYING;

use super::{Steps, burnt_on, due_by, in_memory};
use crate::reference::Projector;
use crate::reference::rules::{Mistake, make};
use crate::replay::device;
use crate::replay::unplayed::{self, Says};

pub enum Wrong {
    /// A step is answered so.
    Takes(Steps),
    /// The log is read as this one.
    Log(fn(&[u8]) -> Vec<u8>),
    /// A line with these numbers is told so on this device, or as it should be: a stretch has three, a sum four.
    Tells(fn(&Projector, &[u128]) -> Option<String>),
    /// What should be printed is printed so.
    Prints(fn(&str) -> String),
    /// A mistake over the rules of a call that a log can show too.
    Call(Mistake),
    /// A form and a log are played so.
    Plays(fn(Option<&[u8]>, &[u8]) -> Vec<u8>),
    /// This is said on standard error.
    Says(&'static Says),
}

impl Wrong {
    /// What the mistaken program prints.
    pub fn printed(&self, form: Option<&[u8]>, log: &[u8]) -> Vec<u8> {
        match self {
            Wrong::Takes(steps) => in_memory(steps, form, log),
            Wrong::Log(read) => burnt_on(form, &read(log)),
            Wrong::Tells(tell) => match device(form) {
                Ok(device) => {
                    let told = |line: &str| tell(&device, &numbers(line)).unwrap_or(line.to_string()) + "\n";
                    ascii(burnt_on(form, log)).lines().flat_map(|line| told(line).into_bytes()).collect()
                }
                Err(_) => burnt_on(form, log),
            },
            Wrong::Prints(print) => print(&ascii(burnt_on(form, log))).into_bytes(),
            Wrong::Call(mistake) => {
                make(Some(*mistake));
                let out = burnt_on(form, log);
                make(None);
                out
            }
            Wrong::Plays(play) => play(form, log),
            Wrong::Says(says) => {
                let (due, given) = (due_by(&unplayed::RIGHT, form, log), due_by(says, form, log));
                if given == due { burnt_on(form, log) } else { format!("{given:?}").into_bytes() }
            }
        }
    }
}

fn numbers(line: &str) -> Vec<u128> {
    line.split(' ').filter_map(|word| word.parse().ok()).collect()
}

fn ascii(out: Vec<u8>) -> String {
    String::from_utf8(out).expect("what is printed is ASCII")
}
