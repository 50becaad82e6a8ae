//! RULES, Class 2: "A set-up carries its class and, for Class 2 only, the serial number, the software version and a
//! name for each input, of that specification's lengths and under .. rule on bytes and on ERR1 to ERR4".

use super::rules::{Mistake, made};
use super::set_up::is_text;
use super::text::Input;
use super::utf8;

/// The header: "the serial number, and .. the software version", "an input's name".
pub const LONGEST_SERIAL: usize = 32;
pub const LONGEST_INPUT_NAME: usize = 128;

#[derive(Clone, PartialEq, Eq, Debug)]
pub enum Class {
    One,
    Two(Texts),
}

#[derive(Clone, PartialEq, Eq, Debug, Default)]
pub struct Texts {
    pub serial: Vec<u8>,
    pub version: Vec<u8>,
    /// In the inputs' order.
    pub names: Vec<Vec<u8>>,
}

impl Class {
    pub fn number(&self) -> u8 {
        match self {
            Class::One => 1,
            Class::Two(_) => 2,
        }
    }

    /// "the input rule .. amended for Class 2 only".
    pub fn allows(&self, inputs: &[Input]) -> bool {
        match self {
            Class::One if made(Mistake::LettersInClass1) => inputs.iter().all(|input| input.kind <= 5),
            Class::One => inputs.iter().all(|input| input.is_of_class_1()),
            Class::Two(texts) => are_of_class_2(inputs) && !texts.in_range(inputs.len()).contains(&false),
        }
    }
}

impl Texts {
    /// Whether each is in its range beside so many inputs: serial number, software version, names.
    pub fn in_range(&self, inputs: usize) -> [bool; 3] {
        let longest_serial = if made(Mistake::Serial33) { 33 } else { LONGEST_SERIAL };
        let longest_version = if made(Mistake::Version64) { 64 } else { LONGEST_SERIAL };
        let are_names = self.names.len() == inputs && self.names.iter().all(|name| is_input_name(name));
        [is_text(&self.serial, longest_serial), is_text(&self.version, longest_version), are_names]
    }
}

/// Every input that there is; a mistake takes fewer.
pub fn are_of_class_2(inputs: &[Input]) -> bool {
    !(made(Mistake::NoSixInClass2) && inputs.iter().any(|input| input.kind == 6))
}

/// A serial number or a software version.
pub fn is_serial(bytes: &[u8]) -> bool {
    is_text(bytes, LONGEST_SERIAL)
}

pub fn is_input_name(bytes: &[u8]) -> bool {
    let longest = match () {
        _ if made(Mistake::Name64) => 64,
        _ if made(Mistake::Name127) => 127,
        _ => LONGEST_INPUT_NAME,
    };
    let refused = made(Mistake::InputNamesInUtf8) && !utf8::is_well_formed(bytes);
    is_text(bytes, longest) && !refused || bytes == b"ERR1" && made(Mistake::InputNameErr1)
}

/// The names that stand one after the other; the header: none where "lengths .. do not add up".
pub fn names_of(mut bytes: &[u8], lengths: &[usize]) -> Option<Vec<Vec<u8>>> {
    let mut names = Vec::new();
    for &length in lengths {
        let length = if made(Mistake::LengthCutTo32Bits) { length as u32 as usize } else { length };
        let (name, rest) = bytes.split_at_checked(length)?;
        names.push(name.to_vec());
        bytes = rest;
    }
    (bytes.is_empty() || made(Mistake::NameBytesLeft)).then_some(names)
}

/// The header: a level is "0 to PJ_VOLUME_MOST", and "PJ_VOLUME_FIRST" at set-up.
#[derive(Clone, Copy, PartialEq, Eq, Debug)]
pub struct Volume(u8);

impl Volume {
    const LOUDEST: u8 = 20;

    pub fn first() -> Volume {
        Volume(if made(Mistake::LevelsFromZero) { 0 } else { 10 })
    }

    pub fn new(level: u8) -> Option<Volume> {
        (level <= Volume::LOUDEST || made(Mistake::LevelsNotTested)).then_some(Volume(level))
    }

    pub fn level(self) -> u8 {
        self.0
    }

    /// The header: "A level stops at 0 and at PJ_VOLUME_MOST".
    pub fn step(&mut self, up: bool) {
        let up = up != made(Mistake::LevelStepsSwapped);
        self.0 = match (up, self.0) {
            (true, Volume::LOUDEST..) if made(Mistake::LevelWraps) => 0,
            (false, 0) if made(Mistake::LevelWraps) => Volume::LOUDEST,
            (true, level) if made(Mistake::LevelPastTwenty) => level.saturating_add(1),
            (true, level) => level.saturating_add(1).min(Volume::LOUDEST),
            (false, level) => level.saturating_sub(1),
        };
    }

    pub fn ends(self, up: bool) -> bool {
        self.0 == if up { Volume::LOUDEST } else { 0 }
    }
}
