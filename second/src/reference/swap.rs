//! RULES, Stored form: the calls on the stored form, which `form` lays out.

use super::calls::{NOT_LEGAL, OUT_OF_RANGE, ROOM_SHORT, accepted};
use super::class::{Class, Texts};
use super::form::{CONTENTS, LEFT_OVER, LONGEST, SHORTEST, Stored, StoredClass, read, written};
use super::rules::{Mistake, knows_class_2, made};
use super::set_up::{LAMP_LIMIT, LONGEST_NAME, inputs_of, is_password, is_short, is_text};
use super::{Power, Projector};
use crate::face;

/// "The writer gives 1 for a record that isn't legal, then 2 for lent memory shorter than the form."
pub fn store(device: &face::Device, out: &mut [u8]) -> face::Written {
    let refused = |number| face::Written { number, length: 0 };
    let Some(projector) = Projector::read(device) else {
        let room_first = made(Mistake::FormRoomFirst) && out.len() < SHORTEST;
        return refused(if room_first { ROOM_SHORT } else { NOT_LEGAL });
    };
    let class = knows_class_2().then(|| StoredClass::of(&projector.set_up.class));
    let form = written(&Stored { lent: settings(&projector), marks: Some(marks(&projector)), class });
    let least = if made(Mistake::RoomForTheLongest) { LONGEST } else { form.len() };
    if out.len() < least {
        return refused(ROOM_SHORT);
    }
    out[..form.len()].copy_from_slice(&form);
    if made(Mistake::RestCleared) {
        out[form.len()..].fill(0);
    }
    face::Written { number: 0, length: form.len() }
}

/// "Loading is a fresh set-up, so the history of demand 3 begins there with the stored seconds." "A refused load gives
/// the blank record."
pub fn load(bytes: &[u8]) -> face::Changed {
    let refused = |number| face::Changed { number, device: face::Device::BLANK };
    let (Stored { lent, marks, class }, left_over) = match read(bytes) {
        Ok(read) => read,
        Err(number) => return refused(number),
    };
    let kept_out = lent.inputs.len() > 2 * 16 && made(Mistake::SixteenLoaded);
    if kept_out && left_over.is_empty() {
        return refused(CONTENTS);
    }
    let lamps = lent.lamps.len();
    let old = || if made(Mistake::OldTakesNewInputs) { needed_class(&lent) } else { Class::One };
    let fresh = match class.map_or_else(|| Some(old()), StoredClass::class) {
        None => Err(OUT_OF_RANGE),
        Some(class) => accepted(&lent, class.clone()).or_else(|number| taken_by_mistake(lent, class).ok_or(number)),
    };
    let fresh = fresh.and_then(|mut fresh| {
        fresh.enabled = loaded_marks(marks, lamps)?;
        Ok(fresh)
    });
    if !left_over.is_empty() && !made(Mistake::LeftOverTaken) {
        return match fresh {
            Err(_) if made(Mistake::ContentsBeforeLeftOver) => refused(CONTENTS),
            Ok(fresh) if made(Mistake::LeftOverGivesRecord) => {
                face::Changed { number: LEFT_OVER, device: fresh.record() }
            }
            _ => refused(LEFT_OVER),
        };
    }
    match fresh {
        Err(number) if made(Mistake::LoadTellsSetUp) => refused(number),
        Err(_) => refused(CONTENTS),
        Ok(mut fresh) => {
            if made(Mistake::LoadedIsOn) {
                fresh.power = Power::On;
            }
            face::Changed { number: 0, device: fresh.record() }
        }
    }
}

/// RULES, Lamps and Stored form: the marks are, "after a load, as the form has them"; "version 1 loads with all set".
/// "one byte 0 or 1 each", as many as lamps, "at least one set if there are lamps"; else 23.
fn loaded_marks(marks: Option<Vec<u8>>, lamps: usize) -> Result<Vec<bool>, u32> {
    let Some(mut marks) = marks else {
        return Ok((0..lamps).map(|lamp| lamp == 0 || !made(Mistake::OldSetsTheFirst)).collect());
    };
    if (marks.len() < lamps && made(Mistake::FewerMarksTaken)) || (marks.len() > lamps && made(Mistake::MoreMarksTaken))
    {
        marks.resize(lamps, 0);
    }
    let are_bits = marks.iter().all(|&mark| mark <= 1) || made(Mistake::AnyByteMarks);
    let mut enabled: Vec<bool> = marks.iter().map(|&mark| mark != 0).collect();
    if made(Mistake::LoadSetsAll) || (made(Mistake::NoMarkLoadsAsAll) && !enabled.contains(&true)) {
        enabled.fill(true);
    }
    let some_set = lamps == 0 || enabled.contains(&true) || made(Mistake::NoMarkLoads);
    if marks.len() == lamps && are_bits && some_set { Ok(enabled) } else { Err(CONTENTS) }
}

/// Class 2 with empty names where the inputs are in no set-up of Class 1.
fn needed_class(lent: &face::Lent) -> Class {
    match inputs_of(&lent.inputs) {
        Some(inputs) if !Class::One.allows(&inputs) => {
            Class::Two(Texts { names: vec![Vec::new(); inputs.len()], ..Texts::default() })
        }
        _ => Class::One,
    }
}

/// No rule takes these; a mistake does.
fn taken_by_mistake(mut lent: face::Lent, class: Class) -> Option<Projector> {
    if made(Mistake::LoadedLampsStopped) {
        lent.lamps.iter_mut().for_each(|seconds| *seconds = (*seconds).min(LAMP_LIMIT));
        return accepted(&lent, class).ok();
    }
    if made(Mistake::LoadedKeepsShort) && is_short(&lent.password) && is_password(&lent.password) {
        let password = std::mem::take(&mut lent.password);
        let mut fresh = accepted(&lent, class).ok()?;
        fresh.set_up.password = password;
        return Some(fresh);
    }
    if made(Mistake::LoadedKeepsOldNames) && is_text(&lent.name, LONGEST_NAME) {
        let name = std::mem::take(&mut lent.name);
        let mut fresh = accepted(&lent, class).ok()?;
        fresh.set_up.name = name;
        return Some(fresh);
    }
    None
}

/// Each lamp's mark as it is now.
fn marks(projector: &Projector) -> Vec<u8> {
    projector.enabled.iter().map(|&enabled| u8::from(enabled || made(Mistake::MarksNotStored))).collect()
}

/// What a set-up would be lent for this projector now: its settings, and "each lamp's seconds as they are now".
fn settings(projector: &Projector) -> face::Lent {
    let set_up = projector.set_up.clone();
    let stored = |&seconds: &u32| if made(Mistake::HoursStored) { seconds - seconds % 3600 } else { seconds };
    face::Lent {
        name: set_up.name,
        maker: set_up.maker,
        model: set_up.model,
        other: set_up.other,
        password: set_up.password,
        inputs: set_up.inputs.iter().flat_map(|input| input.characters()).collect(),
        lamps: projector.lamps.iter().map(stored).collect(),
        warm: set_up.warm,
        cool: set_up.cool,
    }
}
