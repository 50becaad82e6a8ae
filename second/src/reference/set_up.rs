//! What a set-up takes and gives (RULES, The legal record).

use super::class::{Class, Texts, Volume, are_of_class_2, names_of};
use super::rules::{Mistake, made};
use super::text::{Input, all_letters_or_digits};
use super::{Connection, Power, Projector, utf8};
use crate::face::{self, PLACES};

pub const LONGEST_NAME: usize = 64;
pub const LONGEST_INFORMATION: usize = 32;
pub const LONGEST_PASSWORD: usize = 32;
/// RULES, Inputs: "Raise 16 to 32."
pub const MOST_INPUTS: usize = 32;
pub const MOST_LAMPS: usize = 8;
/// "359,999,999 (which is 99,999 hours and 3,599 seconds)".
pub const LAMP_LIMIT: u32 = 359_999_999;

#[derive(Clone, PartialEq, Eq, Debug)]
pub struct SetUp {
    pub name: Vec<u8>,
    pub maker: Vec<u8>,
    pub model: Vec<u8>,
    pub other: Vec<u8>,
    pub password: Vec<u8>,
    pub inputs: Vec<Input>,
    pub warm: u32,
    pub cool: u32,
    pub class: Class,
}

impl SetUp {
    /// RULES, Passwords: "A record or a stored form with such a password is no longer legal".
    pub fn is_legal(&self) -> bool {
        self.is_in_range() && !is_short(&self.password)
    }

    /// The ranges, of which a short password is in the one for passwords.
    pub fn is_in_range(&self) -> bool {
        is_name(&self.name)
            && is_information(&self.maker)
            && is_information(&self.model)
            && is_information(&self.other)
            && is_password(&self.password)
            && are_inputs(&self.inputs)
            && is_transition(self.warm)
            && is_transition(self.cool)
            && self.class.allows(&self.inputs)
    }

    /// "A device starts off, with both mutes off, the first input, no fault, error status 000000, connection closed."
    /// RULES, Lamps: the marks are "all" set "at first". RULES, Class 2, by the header: "not frozen and with both
    /// levels at PJ_VOLUME_FIRST".
    pub fn fresh(self, lamps: Vec<u32>) -> Projector {
        Projector {
            set_up: self,
            power: Power::Off,
            chosen: 0,
            video_muted: false,
            audio_muted: false,
            fault: false,
            errors: [0; 6],
            enabled: fresh_marks(lamps.len()),
            lamps,
            frozen: false,
            speaker: Volume::first(),
            microphone: Volume::first(),
            connections: [const { Connection::Closed }; PLACES],
        }
    }
}

fn fresh_marks(lamps: usize) -> Vec<bool> {
    (0..lamps).map(|lamp| lamp == 0 || !made(Mistake::FirstMarkAlone)).collect()
}

/// "Every byte is 0x20 to 0xFF. No text is exactly ERR1, ERR2, ERR3 or ERR4". So of the texts: name, maker,
/// model and other information.
pub fn is_text(bytes: &[u8], longest: usize) -> bool {
    let reads_as_refusal = [&b"ERR1"[..], b"ERR2", b"ERR3", b"ERR4"].contains(&bytes);
    bytes.len() <= longest && bytes.iter().all(|&b| b >= 0x20) && !reads_as_refusal
}

/// RULES, Texts: "the name must be well-formed UTF-8 by RFC 3629 (no overlong form, no surrogate) with no byte under
/// 0x20." For the rest it is a text as before.
pub fn is_name(bytes: &[u8]) -> bool {
    let taken = is_text(bytes, LONGEST_NAME) && utf8::is_well_formed(bytes);
    taken && !(made(Mistake::ControlsRefused) && has_controls(bytes))
}

/// No rule refuses these; a mistake does.
fn has_controls(bytes: &[u8]) -> bool {
    let is_control = |number: &u32| (0x7F..=0x9F).contains(number);
    utf8::characters(bytes).is_some_and(|numbers| numbers.iter().any(is_control))
}

/// RULES, Texts: "Maker, model and other information keep the old rule."
pub fn is_information(bytes: &[u8]) -> bool {
    let refused = made(Mistake::InformationInUtf8) && !utf8::is_well_formed(bytes);
    is_text(bytes, LONGEST_INFORMATION) && !refused
}

/// "Password 0 to 32 ASCII letters and digits."
pub fn is_password(bytes: &[u8]) -> bool {
    bytes.len() <= LONGEST_PASSWORD && all_letters_or_digits(bytes)
}

/// RULES, Passwords: "The insurer wants at least eight characters. A password of 1 to 7 is refused at set-up with new
/// number 8". None is none: "Length 0 means no security" stands.
pub fn is_short(password: &[u8]) -> bool {
    let fewest = if made(Mistake::NoPasswordIsShort) { 0 } else { 1 };
    let most = match () {
        _ if made(Mistake::SevenIsEnough) => 6,
        _ if made(Mistake::EightIsShort) => 8,
        _ => 7,
    };
    (fewest..=most).contains(&password.len())
}

/// "Lamps: 0 to 8. The lamp starting seconds .. each at most 359,999,999".
pub fn are_lamps(lamps: &[u32]) -> bool {
    lamps.len() <= MOST_LAMPS && lamps.iter().all(|&seconds| seconds <= LAMP_LIMIT)
}

/// Inputs as they are lent: two characters each, so that an odd number of bytes is no list.
pub fn inputs_of(characters: &[u8]) -> Option<Vec<Input>> {
    let input = |characters: &[u8]| match characters {
        [kind @ b'1'..=b'6', b'0'] if made(Mistake::ZeroInClass2) => Some(Input { kind: kind - b'0', number: 0 }),
        _ if made(Mistake::LowerCaseTaken) => Input::from_characters(&characters.to_ascii_uppercase()),
        _ => Input::from_characters(characters),
    };
    characters.chunks(2).map(input).collect()
}

/// "1 to 16, all different", now to 32.
fn are_inputs(inputs: &[Input]) -> bool {
    let most = match () {
        _ if made(Mistake::SixteenInputs) => 16,
        _ if made(Mistake::ThirtyThreeInputs) => 33,
        _ => MOST_INPUTS,
    };
    (1..=most).contains(&inputs.len()) && all_different(inputs)
}

/// "Warm-up W and cooling C: 1 to 600 seconds each."
fn is_transition(seconds: u32) -> bool {
    (1..=600).contains(&seconds)
}

/// Whether each setting is in its range, for Class 1: name, maker, model, other, password, inputs, lamps, W, C.
pub fn in_range(lent: &face::Lent) -> [bool; 9] {
    [
        is_name(&lent.name),
        is_information(&lent.maker),
        is_information(&lent.model),
        is_information(&lent.other),
        is_password(&lent.password),
        inputs_of(&lent.inputs).is_some_and(|inputs| {
            are_inputs(&inputs) && (Class::One.allows(&inputs) || made(Mistake::WhichTakesClass2))
        }),
        are_lamps(&lent.lamps),
        is_transition(lent.warm),
        is_transition(lent.cool),
    ]
}

/// The same for Class 2: after these serial number, software version, names. The header: names are out of their range
/// too where there are "other than one name an input", or "lengths that do not add up to names_len".
pub fn in_range_2(lent: &face::Lent2) -> [bool; 12] {
    let face::Lent2 { lent, serial, version, names, name_lengths } = lent;
    let [name, maker, model, other, password, _, lamps, warm, cool] = in_range(lent);
    let inputs = inputs_of(&lent.inputs).is_some_and(|inputs| are_inputs(&inputs) && are_of_class_2(&inputs));
    let named = names_of(names, name_lengths);
    let add_up = named.is_some();
    let texts = Texts { serial: serial.clone(), version: version.clone(), names: named.unwrap_or_default() };
    let [serial, version, names] = texts.in_range(lent.inputs.len() / 2);
    [name, maker, model, other, password, inputs, lamps, warm, cool, serial, version, names && add_up]
}

fn all_different(inputs: &[Input]) -> bool {
    (0..inputs.len()).all(|place| !inputs[..place].contains(&inputs[place]))
}
