//! The calls of a host, with the table of RULES, The numbers a call gives: "Checks run in the order of the table; a
//! call skips those it can't meet." A refused call gives the record it was given, counts 0, and writes no byte.

use super::class::{Class, Texts, names_of};
use super::controller::{self, Command};
pub use super::places::{close, open, receive};
use super::replies;
use super::rules::{Mistake, made};
use super::set_up::{self, SetUp, are_lamps, inputs_of, is_short};
use super::{Projector, md5};
use crate::face;

/// "lent memory under 136 bytes (projector), 168 (controller writer)".
pub(super) const PROJECTOR_ROOM: usize = 136;
pub(super) const WRITER_ROOM: usize = 168;

pub(super) const NOT_LEGAL: u32 = 1;
pub(super) const ROOM_SHORT: u32 = 2;
pub(super) const OUT_OF_RANGE: u32 = 3;
pub(super) const IS_CLOSED: u32 = 4;
/// RULES, Places: "new number 6, tested where 5 stands".
pub(super) const NO_PLACE: u32 = 6;
const SHORT_PASSWORD: u32 = 8;

/// The places, from 0, of the password among the settings, and of the first that Class 2 alone has.
const PASSWORD: usize = 4;
const SERIAL: usize = 9;

pub fn set_up(lent: &face::Lent) -> face::Changed {
    given(accepted(lent, Class::One))
}

/// RULES, Class 2, by the header: as `pj_set_up`, of Class 2. "other than one name an input; lengths that do not add up
/// to names_len" are 3 too.
pub fn set_up_2(lent: &face::Lent2) -> face::Changed {
    let face::Lent2 { lent, serial, version, names, name_lengths } = lent;
    let mut of_class_1 = set_up::in_range(lent);
    of_class_1[PASSWORD + 1] = true;
    if is_short(&lent.password) && made(Mistake::ShortBeforeTexts) && !of_class_1.contains(&false) {
        return given(Err(SHORT_PASSWORD));
    }
    given(match names_of(names, name_lengths) {
        Some(mut names) => {
            let inputs = lent.inputs.len() / 2;
            if (names.len() < inputs && made(Mistake::FewerNamesTaken))
                || (names.len() > inputs && made(Mistake::MoreNamesTaken))
            {
                names.resize(inputs, Vec::new());
            }
            accepted(lent, Class::Two(Texts { serial: serial.clone(), version: version.clone(), names }))
        }
        None => Err(OUT_OF_RANGE),
    })
}

fn given(accepted: Result<Projector, u32>) -> face::Changed {
    match accepted {
        Ok(projector) => face::Changed { number: 0, device: projector.record() },
        Err(number) => face::Changed { number, device: face::Device::BLANK },
    }
}

/// The projector of a set-up; else 3, or 8 "after every 3 has been ruled out" (RULES, Passwords).
pub(super) fn accepted(lent: &face::Lent, class: Class) -> Result<Projector, u32> {
    if is_short(&lent.password) && is_told_early(lent) {
        return Err(SHORT_PASSWORD);
    }
    let set_up = SetUp {
        name: lent.name.clone(),
        maker: lent.maker.clone(),
        model: lent.model.clone(),
        other: lent.other.clone(),
        password: lent.password.clone(),
        inputs: inputs_of(&lent.inputs).ok_or(OUT_OF_RANGE)?,
        warm: lent.warm,
        cool: lent.cool,
        class,
    };
    if !(set_up.is_in_range() && are_lamps(&lent.lamps)) {
        return Err(OUT_OF_RANGE);
    }
    if is_short(&set_up.password) {
        return Err(if made(Mistake::ShortIsOutOfRange) { OUT_OF_RANGE } else { SHORT_PASSWORD });
    }
    Ok(set_up.fresh(lent.lamps.clone()))
}

/// No rule tells 8 before a 3; a mistake does: before any, before that of a later setting, or before its own.
fn is_told_early(lent: &face::Lent) -> bool {
    let before = || !set_up::in_range(lent)[..PASSWORD].contains(&false);
    let after = || !set_up::in_range(lent)[PASSWORD + 1..].contains(&false);
    match () {
        _ if made(Mistake::ShortFirst) => true,
        _ if made(Mistake::ShortInTurn) => before(),
        _ => made(Mistake::ShortBeforeCharacters) && before() && after(),
    }
}

/// The header: "the first that is out of its range", in the order in which a set-up is lent them, from 1; a short
/// password "is in range for that, and is told where nothing else is wrong"; else 0.
pub fn which_setting(lent: &face::Lent) -> u32 {
    first_out_of_range(set_up::in_range(lent), is_short(&lent.password))
}

/// The header: "as pj_which_setting does of pj_set_up: inputs are in range by the rule of Class 2, and after the cooling
/// come the serial number, the software version and the names".
pub fn which_setting_2(lent: &face::Lent2) -> u32 {
    let mut in_range = set_up::in_range_2(lent);
    let is_short = is_short(&lent.lent.password);
    let (of_class_1, of_class_2) = in_range.split_at_mut(SERIAL);
    if !of_class_1.contains(&false) {
        match of_class_2 {
            [_, _, false] if made(Mistake::NamesToldFirst) => return 12,
            [_, false, _] if made(Mistake::VersionToldFirst) => return 11,
            [true, false, _] if is_short && made(Mistake::ShortToldForVersion) => return PASSWORD as u32 + 1,
            [false, _, _] if made(Mistake::SerialIsEleven) => return 11,
            [true, false, _] if made(Mistake::SerialIsEleven) => return 10,
            _ => (),
        }
    }
    let fewer_names = lent.name_lengths.len() < lent.lent.inputs.len() / 2;
    of_class_2[2] |= fewer_names && made(Mistake::FewerNamesNotTold);
    if made(Mistake::TextsNotTold) {
        of_class_2.fill(true);
    }
    if made(Mistake::WhichKnowsClass1Alone) {
        of_class_1[PASSWORD + 1] = set_up::in_range(&lent.lent)[PASSWORD + 1];
    }
    first_out_of_range(in_range, is_short)
}

fn first_out_of_range<const SETTINGS: usize>(in_range: [bool; SETTINGS], is_short: bool) -> u32 {
    let mut wrong = in_range.map(|in_range| !in_range);
    let short_counts = !wrong.contains(&true) && !made(Mistake::ShortNotTold) || made(Mistake::ShortToldInTurn);
    wrong[PASSWORD] |= short_counts && is_short;
    let first = wrong.iter().position(|&wrong| wrong);
    let last = wrong.iter().rposition(|&wrong| wrong);
    let told = if made(Mistake::LastSettingTold) { last } else { first };
    told.map_or(0, |place| place as u32 + 1)
}

/// A call that has a legal record as its only condition.
fn changed(device: &face::Device, change: impl FnOnce(&mut Projector)) -> face::Changed {
    match Projector::read(device) {
        None => face::Changed { number: NOT_LEGAL, device: *device },
        Some(mut projector) => {
            change(&mut projector);
            face::Changed { number: 0, device: projector.record() }
        }
    }
}

pub fn pass(device: &face::Device, seconds: u32) -> face::Changed {
    changed(device, |projector| projector.pass(seconds))
}

/// "The host's two calls replace it, or the six error digits, and nothing else."
pub fn set_fault(device: &face::Device, mark: bool) -> face::Changed {
    changed(device, |projector| projector.fault = mark)
}

/// "the error digits are 0 to 2", six of them; anything else is 3, after 1.
pub fn set_errors(device: &face::Device, digits: &[u8]) -> face::Changed {
    match <[u8; 6]>::try_from(digits) {
        Ok(digits) if digits.iter().all(|&digit| digit <= 2) => changed(device, |projector| projector.errors = digits),
        _ if Projector::read(device).is_none() => face::Changed { number: NOT_LEGAL, device: *device },
        _ => face::Changed { number: OUT_OF_RANGE, device: *device },
    }
}

pub fn legal(device: &face::Device) -> bool {
    Projector::read(device).is_some()
}

pub fn digest(message: &[u8]) -> face::Digest {
    face::Digest { bytes: md5::md5(message) }
}

pub fn write(command: face::Command, secured: bool, random: u32, password: &[u8], out: &mut [u8]) -> face::Written {
    if out.len() < WRITER_ROOM {
        return face::Written { number: ROOM_SHORT, length: 0 };
    }
    match controller::written(command, secured, random, password) {
        None => face::Written { number: OUT_OF_RANGE, length: 0 },
        Some(line) => {
            out[..line.len()].copy_from_slice(&line);
            face::Written { number: 0, length: line.len() }
        }
    }
}

pub fn read_greeting(line: &[u8]) -> face::Greeting {
    let (number, kind, random) = match controller::greeting(line) {
        Some(controller::Greeting::Plain) => (0, 1, 0),
        Some(controller::Greeting::Secured(random)) => (0, 2, random),
        Some(controller::Greeting::Erra) => (0, 3, 0),
        None => (replies::NO_REPLY_LINE, 0, 0),
    };
    face::Greeting { number, kind, random }
}

pub fn read_reply(command: face::Command, line: &[u8]) -> face::Reading {
    let Some(command) = Command::read(command) else { return face::Reading::refused(OUT_OF_RANGE) };
    match replies::meaning(command, line) {
        Ok(meaning) => meaning.flattened(),
        Err(number) => face::Reading::refused(number),
    }
}
