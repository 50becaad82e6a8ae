//! What a panel shows of a projector.

use crate::reference::commands::BODIES;
use crate::reference::controller::Command;
use crate::reference::replies::{Meaning, meaning};
use crate::reference::rules::{Mistake, made};
use crate::reference::text::Input;

/// "the panel shows the last accepted reading, or unknown at first".
#[derive(Clone, PartialEq, Eq, Debug, Default)]
pub struct Known {
    pub power: Option<u8>,
    pub input: Option<Input>,
    pub lamps: Option<Vec<(u32, bool)>>,
}

impl Known {
    /// "an OK or error changes no reading"; what is asked for beside power, input and lamps is not kept.
    pub fn show(&mut self, command: Command, told: Meaning) {
        match (told, command) {
            (Meaning::Power(digit), _) => self.power = Some(digit),
            (Meaning::Input(_), Command::Class2(_)) if made(Mistake::PanelHidesNewReply) => (),
            (Meaning::Input(input), _) => self.input = Some(input),
            (Meaning::Lamps(lamps), _) => self.lamps = Some(lamps),
            (Meaning::Ok, Command::SetPower(on)) if made(Mistake::OkShownAsPower) => self.power = Some(u8::from(on)),
            (Meaning::Ok, Command::SetInput(input)) if made(Mistake::OkShownAsInput) => self.input = Some(input),
            (Meaning::Error(_), Command::Query(_)) if made(Mistake::ErrorForgets) => *self = Known::default(),
            _ => (),
        }
    }

    /// No rule shows what a foreign reply says; a mistake does.
    pub fn show_foreign(&mut self, line: &[u8]) {
        for (body, _) in BODIES {
            let asked = Command::Query(body);
            if let Ok(told) = meaning(asked, line) {
                self.show(asked, told);
            }
        }
    }
}
