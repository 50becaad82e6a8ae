//! RULES, Commands.

use super::rules::{Mistake, made};
use super::set_up::MOST_INPUTS;
use super::text::Input;
use super::{Power, Projector};

/// The bodies of Class 1. "Bodies are compared without regard to case".
#[derive(Clone, Copy, PartialEq, Eq, Debug)]
pub enum Body {
    Powr,
    Inpt,
    Avmt,
    Erst,
    Lamp,
    Inst,
    Name,
    Inf1,
    Inf2,
    Info,
    Clss,
}

pub const BODIES: [(Body, &[u8; 4]); 11] = [
    (Body::Powr, b"POWR"),
    (Body::Inpt, b"INPT"),
    (Body::Avmt, b"AVMT"),
    (Body::Erst, b"ERST"),
    (Body::Lamp, b"LAMP"),
    (Body::Inst, b"INST"),
    (Body::Name, b"NAME"),
    (Body::Inf1, b"INF1"),
    (Body::Inf2, b"INF2"),
    (Body::Info, b"INFO"),
    (Body::Clss, b"CLSS"),
];

impl Body {
    pub fn from_bytes(bytes: &[u8; 4]) -> Option<Body> {
        BODIES.iter().find(|(_, name)| name.eq_ignore_ascii_case(bytes)).map(|(body, _)| *body)
    }

    pub fn bytes(self) -> &'static [u8; 4] {
        BODIES[self as usize].1
    }

    fn may_be_set(self) -> bool {
        matches!(self, Body::Powr | Body::Inpt | Body::Avmt)
    }
}

/// "Set" in the table of bodies; the number is the input's place in the set-up.
enum Set {
    Power(bool),
    Input(usize),
    Mute { video: bool, audio: bool, on: bool },
}

impl Projector {
    /// "The reply is `%1`, the four body bytes as received, case kept .., `=`, the parameter, CR."
    pub fn answer(&mut self, body: &[u8; 4], parameter: &[u8]) -> Vec<u8> {
        let echoed = if made(Mistake::BodyUpperCased) { body.to_ascii_uppercase() } else { body.to_vec() };
        let answered = self.answered_parameter(body, parameter);
        [b"%1", &echoed[..], b"=", &answered, b"\r"].concat()
    }

    pub(super) fn answered_parameter(&mut self, body: &[u8; 4], parameter: &[u8]) -> Vec<u8> {
        let error = |text: &[u8]| text.to_vec();
        let asks = parameter == b"?";

        // 1. "Unknown body, a query-only body with a parameter other than `?`, or LAMP with no lamps: ERR1."
        let Some(body) = Body::from_bytes(body) else { return error(b"ERR1") };
        if (!body.may_be_set() && !asks) || (body == Body::Lamp && self.lamps.is_empty()) {
            return error(b"ERR1");
        }
        if !body.may_be_set() {
            return self.query(body);
        }

        // 2. "POWR, INPT or AVMT with a parameter neither `?` nor listed: ERR2."
        let set = self.listed(body, parameter);
        if !asks && set.is_none() {
            return error(b"ERR2");
        }

        // 3. "POWR, INPT, AVMT, set or query, with the fault flag: ERR4."
        // 4. "POWR set in warm-up or cooling; INPT and AVMT, set or query, unless on: ERR3."
        let moving = matches!(self.power, Power::WarmUp(_) | Power::Cooling(_));
        let not_now = if body == Body::Powr { set.is_some() && moving } else { self.power != Power::On };
        if not_now && made(Mistake::Err3BeforeErr4) {
            return error(b"ERR3");
        }
        if self.fault {
            return error(b"ERR4");
        }
        if not_now {
            return error(b"ERR3");
        }

        match set {
            Some(set) => self.do_set(set),
            None => self.query(body),
        }
    }

    /// The sets that the table lists. "An input not in the set-up is not listed." "First digit of AVMT: 1 video, 2
    /// audio, 3 both; second: 1 mute on, 0 off".
    fn listed(&self, body: Body, parameter: &[u8]) -> Option<Set> {
        match (body, parameter) {
            (Body::Powr, b"0") => Some(Set::Power(false)),
            (Body::Powr, b"1") => Some(Set::Power(true)),
            (Body::Inpt, _) => {
                let is_old = |place: &usize| self.set_up.inputs[*place].is_of_class_1();
                let listed = self.listed_input(parameter);
                listed.filter(|place| is_old(place) || !made(Mistake::NewInputRefusedUnderOne)).map(Set::Input)
            }
            (Body::Avmt, [which @ b'1'..=b'3', turn @ b'0'..=b'1']) => {
                let (first, other) = if made(Mistake::MutesSwapped) { (b'2', b'1') } else { (b'1', b'2') };
                Some(Set::Mute { video: *which != other, audio: *which != first, on: *turn == b'1' })
            }
            _ => None,
        }
    }

    /// The place of the input that these two characters name.
    pub(super) fn listed_input(&self, characters: &[u8]) -> Option<usize> {
        let most = if made(Mistake::SixteenListed) { 16 } else { MOST_INPUTS };
        let any_case = characters.to_ascii_uppercase();
        let characters = if made(Mistake::LowerCaseAsked) { &any_case } else { characters };
        self.set_up.inputs.iter().take(most).position(|input| input.characters() == characters)
    }

    /// "A set that passes answers OK. POWR 1 when off starts warm-up with W left; POWR 0 when on starts cooling with C
    /// left; otherwise power stays." Of the mutes "the unnamed half stays".
    fn do_set(&mut self, set: Set) -> Vec<u8> {
        match set {
            Set::Power(on) => match (on, self.power) {
                (true, Power::Off) => {
                    self.power = Power::WarmUp(self.set_up.warm);
                    if made(Mistake::ChosenInputReset) {
                        self.chosen = 0;
                    }
                }
                (false, Power::On) => {
                    self.power = Power::Cooling(self.set_up.cool);
                    if made(Mistake::FreezeEndsAtPowerOff) {
                        self.frozen = false;
                    }
                }
                _ => (),
            },
            Set::Input(place) => self.choose(place),
            Set::Mute { video, audio, on } => {
                if video {
                    self.video_muted = on;
                }
                if audio {
                    self.audio_muted = on;
                }
            }
        }
        b"OK".to_vec()
    }

    fn query(&self, body: Body) -> Vec<u8> {
        match body {
            Body::Powr => vec![self.power_digit()],
            Body::Inpt => self.chosen_answer(),
            // "11 video only, 21 audio only, 31 both, 30 neither"
            Body::Avmt => match (self.video_muted, self.audio_muted) {
                (true, false) => b"11".to_vec(),
                (false, true) => b"21".to_vec(),
                (true, true) => b"31".to_vec(),
                (false, false) => b"30".to_vec(),
            },
            Body::Erst => self.errors.iter().map(|digit| b'0' + digit).collect(),
            Body::Lamp => joined_by_spaces(self.told_lamps().map(|lamp| self.lamp_answer(lamp))),
            Body::Inst if made(Mistake::OldInputsUnderOne) => {
                let old = self.set_up.inputs.iter().filter(|input| input.is_of_class_1());
                joined_by_spaces(old.map(|input| input.characters().to_vec()))
            }
            Body::Inst => self.inputs_answer(),
            Body::Name => self.set_up.name.clone(),
            Body::Inf1 => self.set_up.maker.clone(),
            Body::Inf2 => self.set_up.model.clone(),
            Body::Info => self.set_up.other.clone(),
            // RULES, Class 2: "CLSS .. amended for Class 2 only"
            Body::Clss if made(Mistake::ClassToldOne) => b"1".to_vec(),
            Body::Clss => vec![b'0' + self.set_up.class.number()],
        }
    }

    pub(super) fn choose(&mut self, place: usize) {
        self.chosen = place;
        if made(Mistake::FreezeEndsWithInput) {
            self.frozen = false;
        }
    }

    pub(super) fn chosen_answer(&self) -> Vec<u8> {
        self.set_up.inputs[self.chosen].characters().to_vec()
    }

    /// "inputs in set-up order, joined by spaces".
    pub(super) fn inputs_answer(&self) -> Vec<u8> {
        let most = if made(Mistake::SixteenAnswered) { 16 } else { MOST_INPUTS };
        let inputs = self.set_up.inputs.iter().take(most);
        joined_by_spaces(inputs.map(|input: &Input| input.characters().to_vec()))
    }

    /// "0 off, 1 on, 2 cooling, 3 warm-up".
    pub fn power_digit(&self) -> u8 {
        match self.power {
            Power::Off => b'0',
            Power::On => b'1',
            Power::Cooling(_) => b'2',
            Power::WarmUp(_) => b'3',
        }
    }

    /// Every lamp, with its mark or without.
    fn told_lamps(&self) -> impl Iterator<Item = usize> {
        (0..self.lamps.len()).filter(|&lamp| self.enabled[lamp] || !made(Mistake::UnmarkedLeftOut))
    }

    /// "hours, space, 1 (lit) in warm-up or on, else 0"; RULES, Lamps: "Only enabled lamps .. show as lit." "Hours are
    /// seconds divided by 3,600, rounded down; the hours are written most significant digit first, no leading zeros."
    fn lamp_answer(&self, lamp: usize) -> Vec<u8> {
        let seconds = self.lamps[lamp];
        let hours = if made(Mistake::HoursRoundedUp) { seconds.div_ceil(3600) } else { seconds / 3600 };
        let enabled = self.enabled[lamp] || made(Mistake::EveryLampLit);
        let lit = enabled && matches!(self.power, Power::WarmUp(_) | Power::On);
        let width = if made(Mistake::HoursPadded) { 5 } else { 1 };
        format!("{hours:0width$} {}", u8::from(lit)).into_bytes()
    }
}

fn joined_by_spaces(parts: impl Iterator<Item = Vec<u8>>) -> Vec<u8> {
    parts.collect::<Vec<_>>().join(&b' ')
}
