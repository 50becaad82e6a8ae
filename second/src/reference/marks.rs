//! RULES, Lamps: lamps that burn one at a time. "Each lamp gets an enabled mark, set by the host while power is off".

use super::calls::{NOT_LEGAL, OUT_OF_RANGE};
use super::rules::{Mistake, made};
use super::{Power, Projector};
use crate::face;

/// "refused with new number 7 (after 3) otherwise".
const NOT_OFF: u32 = 7;

/// 1, 3, 7.
pub fn set_mark(device: &face::Device, lamp: usize, enabled: bool) -> face::Changed {
    let refused = |number| face::Changed { number, device: *device };
    let Some(mut projector) = Projector::read(device) else {
        let told = lamp >= device.settings.lamp_count && made(Mistake::LampBeforeLegality);
        return refused(if told { OUT_OF_RANGE } else { NOT_LEGAL });
    };
    match projector.set_mark(lamp, enabled) {
        Ok(()) => face::Changed { number: 0, device: projector.record() },
        Err(number) => refused(number),
    }
}

/// "a lamp place that does not exist is 3". Lamps are numbered from 0.
fn lamp_of(projector: &Projector, number: usize) -> Option<usize> {
    let number = match () {
        _ if made(Mistake::LampCutTo32Bits) => number as u32 as usize,
        _ if made(Mistake::LampCutToAByte) => usize::from(number as u8),
        _ if made(Mistake::LampModulo8) => number % 8,
        _ if made(Mistake::LampsFrom1) => number.wrapping_sub(1),
        _ => number,
    };
    (number < projector.lamps.len()).then_some(number)
}

impl Projector {
    /// 3, 7.
    pub fn set_mark(&mut self, lamp: usize, enabled: bool) -> Result<(), u32> {
        if !self.may_be_marked() && made(Mistake::NotOffFirst) {
            return Err(NOT_OFF);
        }
        let lamp = lamp_of(self, lamp).ok_or(OUT_OF_RANGE)?;
        if !enabled && self.is_last_mark(lamp) {
            return Err(OUT_OF_RANGE);
        }
        if self.enabled[lamp] == enabled && made(Mistake::SameMarkRefused) {
            return Err(OUT_OF_RANGE);
        }
        if !self.may_be_marked() {
            return Err(if made(Mistake::NotOffIsThree) { OUT_OF_RANGE } else { NOT_OFF });
        }
        if enabled && made(Mistake::OneMarkAtATime) {
            self.enabled.fill(false);
        }
        if enabled && !self.enabled[lamp] && made(Mistake::MarkStartsAnew) {
            self.lamps[lamp] = 0;
        }
        self.enabled[lamp] = enabled;
        Ok(())
    }

    fn may_be_marked(&self) -> bool {
        match self.power {
            Power::Off => !(self.fault && made(Mistake::FaultRefusesMarks)),
            Power::Cooling(_) => made(Mistake::MarkedInCooling),
            Power::WarmUp(_) | Power::On => false,
        }
    }

    /// "Clearing the last one is 3." A mark that is clear is not the last one.
    fn is_last_mark(&self, lamp: usize) -> bool {
        let set = self.enabled.iter().filter(|&&enabled| enabled).count();
        match () {
            _ if made(Mistake::LastMarkCleared) => false,
            _ if made(Mistake::LastMarkWhicheverLamp) => set == 1,
            _ => set == 1 && self.enabled[lamp],
        }
    }
}
