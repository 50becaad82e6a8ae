//! RULES, Class 2: "the `%2` header, freeze, the volume steps, the serial number and software version queries, input
//! names". The header of the archive has the table and the refusals.

use super::class::{Texts, Volume};
use super::commands::Body;
use super::rules::{Mistake, made};
use super::{Power, Projector};

/// The bodies under `%2`. Those of Class 1 that are not among them are asked for under `%1` only.
#[derive(Clone, Copy, PartialEq, Eq, Debug)]
pub enum Body2 {
    Inpt,
    Inst,
    Frez,
    Svol,
    Mvol,
    Snum,
    Sver,
    Innm,
}

pub const BODIES_2: [(Body2, &[u8; 4]); 8] = [
    (Body2::Inpt, b"INPT"),
    (Body2::Inst, b"INST"),
    (Body2::Frez, b"FREZ"),
    (Body2::Svol, b"SVOL"),
    (Body2::Mvol, b"MVOL"),
    (Body2::Snum, b"SNUM"),
    (Body2::Sver, b"SVER"),
    (Body2::Innm, b"INNM"),
];

impl Body2 {
    fn from_bytes(bytes: &[u8; 4]) -> Option<Body2> {
        BODIES_2.iter().find(|(_, name)| name.eq_ignore_ascii_case(bytes)).map(|(body, _)| *body)
    }

    pub fn bytes(self) -> &'static [u8; 4] {
        BODIES_2[self as usize].1
    }

    fn is_query_only(self) -> bool {
        match self {
            Body2::Snum => !made(Mistake::SerialSetIsErr2),
            Body2::Inst | Body2::Sver => true,
            _ => false,
        }
    }

    /// "INPT, FREZ, SVOL and MVOL, set or query, are ERR4 under the fault flag, and ERR3 unless the power is on."
    fn waits_for_power(self) -> bool {
        matches!(self, Body2::Inpt | Body2::Frez | Body2::Svol | Body2::Mvol)
    }

    fn is_level(self) -> bool {
        matches!(self, Body2::Svol | Body2::Mvol)
    }
}

/// What the table has; the numbers are inputs' places in the set-up.
enum Wish {
    AskInput,
    SetInput(usize),
    AskInputs,
    AskFreeze,
    SetFreeze(bool),
    StepSpeaker {
        up: bool,
    },
    StepMicrophone {
        up: bool,
    },
    AskSerial,
    AskVersion,
    AskName(usize),
    /// No rule answers these; a mistake does.
    Mistaken(Vec<u8>),
    TakeLevel(Body2, Volume),
}

impl Projector {
    /// The reply to a `%2` line in Class 2: as that to a `%1` line, with the line's own class.
    pub fn answer_2(&mut self, texts: &Texts, body: &[u8; 4], parameter: &[u8]) -> Vec<u8> {
        let known = Body2::from_bytes(body).is_some();
        if !known && made(Mistake::OtherBodyUnderTwoDropped) {
            return Vec::new();
        }
        let answered = match Body::from_bytes(body) {
            Some(Body::Clss) if made(Mistake::ClassAskedUnderTwo) => self.answered_parameter(body, parameter),
            Some(_) if !known && made(Mistake::OldBodiesUnderTwo) => self.answered_parameter(body, parameter),
            _ => self.answered_parameter_2(texts, body, parameter),
        };
        let header = if made(Mistake::RepliesWithOne) { b"%1" } else { b"%2" };
        [header, &body[..], b"=", &answered, b"\r"].concat()
    }

    /// The reply to a `%1` line in Class 2: as in Class 1.
    pub fn answer_in_class_2(&mut self, texts: &Texts, body: &[u8; 4], parameter: &[u8]) -> Vec<u8> {
        let new = Body2::from_bytes(body).is_some() && Body::from_bytes(body).is_none();
        if new && made(Mistake::NewBodiesUnderOne) {
            let answered = self.answered_parameter_2(texts, body, parameter);
            return [b"%1", &body[..], b"=", &answered, b"\r"].concat();
        }
        let mut reply = self.answer(body, parameter);
        if made(Mistake::RepliesWithTwo) {
            reply[1] = b'2';
        }
        reply
    }

    fn answered_parameter_2(&mut self, texts: &Texts, body: &[u8; 4], parameter: &[u8]) -> Vec<u8> {
        let error = |text: &[u8]| text.to_vec();
        let asks = parameter == b"?";

        // "Every other body is ERR1 under `%2` .. and so is INST, SNUM or SVER with another parameter than `?`."
        let Some(body) = Body2::from_bytes(body) else { return error(b"ERR1") };
        if body.is_query_only() && !asks {
            return error(b"ERR1");
        }

        // "INPT, FREZ, SVOL, MVOL or INNM with a parameter that the table does not have is ERR2"
        let wish = self.wish(body, parameter).or_else(|| self.mistaken_wish(texts, body, parameter));
        let Some(wish) = wish else { return error(b"ERR2") };

        let waits = body.waits_for_power() || body == Body2::Innm && made(Mistake::NameNeedsPower);
        let told = matches!(wish, Wish::AskFreeze) && made(Mistake::FreezeToldAlways);
        let not_now = waits && self.power != Power::On && !told;
        if not_now && made(Mistake::Err3BeforeErr4UnderTwo) {
            return error(b"ERR3");
        }
        if body.waits_for_power() && self.fault && !(body.is_level() && made(Mistake::FaultLeavesLevels)) {
            return error(b"ERR4");
        }
        if not_now {
            return error(b"ERR3");
        }
        self.grant(texts, wish)
    }

    /// No rule grants these; a mistake does.
    fn mistaken_wish(&self, texts: &Texts, body: Body2, parameter: &[u8]) -> Option<Wish> {
        let level = if body == Body2::Svol { self.speaker } else { self.microphone };
        match (body, parameter) {
            (Body2::Svol | Body2::Mvol, b"?") if made(Mistake::LevelTold) => {
                Some(Wish::Mistaken(level.level().to_string().into_bytes()))
            }
            (Body2::Svol | Body2::Mvol, _) if made(Mistake::LevelTaken) => {
                let level = std::str::from_utf8(parameter).ok()?.parse().ok()?;
                Volume::new(level).map(|level| Wish::TakeLevel(body, level))
            }
            (Body2::Innm, b"?") if made(Mistake::NameOfChosen) => Some(Wish::AskName(self.chosen)),
            (Body2::Innm, [b'?', kind, _]) if made(Mistake::NameOfType) => {
                let place = self.set_up.inputs.iter().position(|input| input.characters()[0] == *kind)?;
                Some(Wish::Mistaken(texts.names[place].clone()))
            }
            (Body2::Innm, [b'?', _, _]) if made(Mistake::NameUnlistedIsErr1) => Some(Wish::Mistaken(b"ERR1".to_vec())),
            (Body2::Innm, [b'?', _, _]) if made(Mistake::NameUnlistedIsEmpty) => Some(Wish::Mistaken(Vec::new())),
            (Body2::Innm, _) if made(Mistake::NameWithoutMark) => self.listed_input(parameter).map(Wish::AskName),
            _ => None,
        }
    }

    fn wish(&self, body: Body2, parameter: &[u8]) -> Option<Wish> {
        match (body, parameter) {
            (Body2::Svol | Body2::Mvol, _) if made(Mistake::LevelTaken) => None,
            (Body2::Innm, [b'?', _, _]) if made(Mistake::NameOfType) => None,
            (Body2::Inpt, b"?") => Some(Wish::AskInput),
            (Body2::Inpt, _) => self.listed_input(parameter).map(Wish::SetInput),
            (Body2::Inst, b"?") => Some(Wish::AskInputs),
            (Body2::Frez, b"?") => Some(Wish::AskFreeze),
            (Body2::Frez, b"0" | b"1") => Some(Wish::SetFreeze(parameter == b"1")),
            (Body2::Svol, b"0" | b"1") => Some(Wish::StepSpeaker { up: parameter == b"1" }),
            (Body2::Mvol, b"0" | b"1") => Some(Wish::StepMicrophone { up: parameter == b"1" }),
            (Body2::Snum, b"?") => Some(Wish::AskSerial),
            (Body2::Sver, b"?") => Some(Wish::AskVersion),
            (Body2::Innm, [b'?', input @ ..]) => self.listed_input(input).map(Wish::AskName),
            _ => None,
        }
    }

    /// A set is answered OK, a query with what the table says.
    fn grant(&mut self, texts: &Texts, wish: Wish) -> Vec<u8> {
        match wish {
            Wish::SetInput(place) => self.choose(place),
            Wish::SetFreeze(on) => self.frozen = on,
            Wish::StepSpeaker { up } if self.speaker.ends(up) && made(Mistake::LevelEndRefused) => {
                return b"ERR3".to_vec();
            }
            Wish::StepSpeaker { up } => {
                self.speaker.step(up);
                if made(Mistake::LevelUnmutes) {
                    self.audio_muted = false;
                }
            }
            Wish::StepMicrophone { up } if made(Mistake::MicrophoneIsSpeaker) => self.speaker.step(up),
            Wish::StepMicrophone { up } => self.microphone.step(up),
            Wish::Mistaken(answer) => return answer,
            Wish::TakeLevel(Body2::Svol, level) => self.speaker = level,
            Wish::TakeLevel(_, level) => self.microphone = level,
            Wish::AskInput => return self.chosen_answer(),
            Wish::AskInputs => return self.inputs_answer(),
            Wish::AskFreeze => return vec![b'0' + u8::from(self.frozen)],
            Wish::AskSerial if made(Mistake::SerialIsVersion) => return texts.version.clone(),
            Wish::AskSerial => return texts.serial.clone(),
            Wish::AskVersion => return texts.version.clone(),
            Wish::AskName(place) => return texts.names[place].clone(),
        }
        b"OK".to_vec()
    }
}
