//! The record of a panel, read and written back. "What is not known, not under way or past the count is zero. A panel
//! is legal or not, as a device record is".

use super::known::Known;
use super::{Entry, Greeted, MOST_STRAYS, Panel, Secured};
use crate::face::{self, Flag};
use crate::reference::controller::Command;
use crate::reference::record::{part_in_use, read_flag, read_text, write_text};
use crate::reference::rules::{Mistake, made};
use crate::reference::set_up::{MOST_LAMPS, is_password};
use crate::reference::text::Input;

/// The header: "at most PJ_HOURS_MOST".
const MOST_HOURS: u32 = 99_999;

const NO_COMMAND: face::Command = face::Command { code: 0, first: 0, second: 0 };

impl Panel {
    /// The panel that a record stands for; nothing exactly if the record is not legal.
    pub fn read(record: &face::Panel) -> Option<Panel> {
        let entries = record.entries.get(..record.count)?;
        let mut past = record.entries[record.count..].iter();
        let clean = past.all(|entry| *entry == face::Entry::NONE) || made(Mistake::PastTheCountPassedOver);
        if !clean {
            return None;
        }
        entries.iter().map(Entry::read).collect::<Option<_>>().map(Panel)
    }

    pub fn record(&self) -> face::Panel {
        let mut record = face::Panel { count: self.0.len(), ..face::Panel::NONE };
        for (room, entry) in record.entries.iter_mut().zip(&self.0) {
            *room = entry.record();
        }
        record
    }
}

impl Entry {
    fn read(entry: &face::Entry) -> Option<Entry> {
        let password = read_text(&entry.password)?;
        let counted = entry.strays <= MOST_STRAYS;
        (counted && is_password(&password)).then_some(Entry {
            password,
            greeted: read_greeted(entry)?,
            known: Known { power: read_power(entry)?, input: read_input(entry)?, lamps: read_lamps(entry)? },
            strays: entry.strays,
        })
    }

    fn record(&self) -> face::Entry {
        let mut entry = face::Entry { strays: self.strays, ..face::Entry::NONE };
        write_text(&self.password, &mut entry.password);
        if let Some(Greeted { secured, under_way }) = self.greeted {
            entry.greeting = if secured.is_some() { 2 } else { 1 };
            (entry.random, entry.led) =
                secured.map_or((0, Flag::NO), |secured| (secured.random, Flag::from(secured.led)));
            entry.under_way = Flag::from(under_way.is_some());
            entry.command = under_way.unwrap_or(NO_COMMAND);
        }
        if let Some(digit) = self.known.power {
            (entry.power_known, entry.power) = (Flag::YES, digit);
        }
        if let Some(input) = self.known.input {
            (entry.input_known, entry.input_type, entry.input_number) = (Flag::YES, input.kind, input.number);
        }
        if let Some(lamps) = &self.known.lamps {
            (entry.lamps_known, entry.lamp_count) = (Flag::YES, lamps.len());
            for (place, &(hours, lit)) in lamps.iter().enumerate() {
                (entry.hours[place], entry.lit[place]) = (hours, Flag::from(lit));
            }
        }
        entry
    }
}

/// The header: `random` "of a greeting that is PJ_AWAITED_SECURED, else 0", `led` "false with any other", `under_way`
/// "false without a greeting". The outer nothing is an illegal record, the inner one no greeting.
fn read_greeted(entry: &face::Entry) -> Option<Option<Greeted>> {
    let face::Entry { greeting, random, command, .. } = *entry;
    let (led, under_way) = (read_flag(entry.led)?, read_flag(entry.under_way)?);
    let kept_by_mistake = greeting == 1 && made(Mistake::RandomOfOpenPassedOver);
    let unsecured = !led && (random == 0 || kept_by_mistake);
    let secured = match greeting {
        0 => return (unsecured && !under_way && command == NO_COMMAND).then_some(None),
        1 if unsecured => None,
        2 => Some(Secured { random, led }),
        _ => return None,
    };
    let legal = match under_way {
        true => Command::read(command).is_some() || made(Mistake::AnythingUnderWay),
        false => command == NO_COMMAND || made(Mistake::NotUnderWayPassedOver),
    };
    legal.then_some(Some(Greeted { secured, under_way: under_way.then_some(command) }))
}

/// "enum pj_power; 0 where it is not known".
fn read_power(entry: &face::Entry) -> Option<Option<u8>> {
    match (read_flag(entry.power_known)?, entry.power) {
        (true, digit @ 0..=3) => Some(Some(digit)),
        (false, 0) => Some(None),
        (false, _) if made(Mistake::UnknownPassedOver) => Some(None),
        _ => None,
    }
}

/// "1 to 6 and 1 to 35; both 0 where the input is not known".
fn read_input(entry: &face::Entry) -> Option<Option<Input>> {
    match (read_flag(entry.input_known)?, entry.input_type, entry.input_number) {
        (true, kind, 36) if made(Mistake::PanelTakes36) && (1..=6).contains(&kind) => {
            Some(Some(Input { kind, number: 36 }))
        }
        (true, kind, number) => {
            let is_new = |input: &Input| !input.is_of_class_1() && made(Mistake::PanelKeepsOldInputs);
            Input::new(kind, number).filter(|input| !is_new(input)).map(Some)
        }
        (false, 0, 0) => Some(None),
        _ => None,
    }
}

/// "1 to PJ_LAMPS_MOST; 0 where the lamps are not known", and "0 past the count".
fn read_lamps(entry: &face::Entry) -> Option<Option<Vec<(u32, bool)>>> {
    let hours = part_in_use(&entry.hours, entry.lamp_count, MOST_LAMPS)?;
    let lit = part_in_use(&entry.lit, entry.lamp_count, MOST_LAMPS)?;
    let lit: Vec<bool> = lit.into_iter().map(read_flag).collect::<Option<_>>()?;
    let known = read_flag(entry.lamps_known)?;
    let most = if made(Mistake::HoursNotBounded) { u32::MAX } else { MOST_HOURS };
    let legal = hours.iter().all(|&hours| hours <= most) && known != hours.is_empty();
    legal.then(|| known.then(|| hours.into_iter().zip(lit).collect()))
}
