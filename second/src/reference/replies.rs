//! RULES, Controller: "The reply reader is told the command."

use super::class::{is_input_name, is_serial};
use super::class_2::Body2;
use super::commands::Body;
use super::connection::ERRA_LINE;
use super::controller::{Command, Command2};
use super::rules::{Mistake, knows_class_2, made};
use super::set_up::{LONGEST_NAME, is_information, is_name, is_text};
use super::text::{CR, Input, all_letters_or_digits, hours};

/// "Its meaning may be an input with its type and number, a list of lamps, a text."
#[derive(Clone, PartialEq, Eq, Debug)]
pub enum Meaning {
    Ok,
    Error(u8),
    Power(u8),
    Input(Input),
    Mutes { video: bool, audio: bool },
    Errors([u8; 6]),
    Lamps(Vec<(u32, bool)>),
    Inputs(Vec<Input>),
    Text(Vec<u8>),
    Class(u8),
    Erra,
    Freeze(bool),
}

/// The reply reader's refusals, with their numbers.
pub const NO_REPLY_LINE: u32 = 10;
pub const OTHER_COMMAND: u32 = 11;
pub const PARAMETER_NOT_ALLOWED: u32 = 12;

/// "It knows the ERRA line, then tests the form (`%1`, four letters or digits, `=`, 0 to 128 bytes with no CR, one CR
/// at the end), then the body without case, then the parameter." RULES, Class 2: the form has the command's own class.
pub fn meaning(command: Command, line: &[u8]) -> Result<Meaning, u32> {
    if line == ERRA_LINE {
        return Ok(Meaning::Erra);
    }
    let other = if command.class_digit() == b'1' { b'2' } else { b'1' };
    let formed = match formed(line, command.class_digit()) {
        None if made(Mistake::ReaderTakesEitherClass) => formed(line, other),
        None if made(Mistake::OtherClassIsForeign) && formed(line, other).is_some() => return Err(OTHER_COMMAND),
        formed => formed,
    };
    let (body, parameter) = formed.ok_or(NO_REPLY_LINE)?;
    if !body.eq_ignore_ascii_case(command.body()) {
        return Err(OTHER_COMMAND);
    }
    let meaning = match command {
        Command::Query(body) => query_meaning(body, parameter),
        Command::Class2(Command2::Query(body)) => query_meaning_2(body, parameter),
        Command::Class2(Command2::AskName(_)) => name_meaning(parameter),
        _ => set_meaning(parameter),
    };
    meaning.ok_or(PARAMETER_NOT_ALLOWED)
}

fn formed(line: &[u8], class_digit: u8) -> Option<(&[u8], &[u8])> {
    let (body, parameter) = line.strip_prefix(&[b'%', class_digit])?.strip_suffix(b"\r")?.split_at_checked(4)?;
    let parameter = parameter.strip_prefix(b"=")?;
    let allowed = all_letters_or_digits(body) && parameter.len() <= 128 && !parameter.contains(&CR);
    allowed.then_some((body, parameter))
}

/// "Sets allow OK and ERR1 to ERR4".
fn set_meaning(parameter: &[u8]) -> Option<Meaning> {
    match parameter {
        b"OK" => Some(Meaning::Ok),
        [b'E', b'R', b'R', digit @ b'1'..=b'4'] => Some(Meaning::Error(digit - b'0')),
        _ => None,
    }
}

/// "queries the values above or ERR1, ERR3, ERR4".
fn refusal(parameter: &[u8]) -> Option<Meaning> {
    match parameter {
        [b'E', b'R', b'R', digit @ (b'1' | b'3' | b'4')] => Some(Meaning::Error(digit - b'0')),
        _ => None,
    }
}

fn query_meaning(body: Body, parameter: &[u8]) -> Option<Meaning> {
    if let Some(refusal) = refusal(parameter) {
        return Some(refusal);
    }
    match (body, parameter) {
        (Body::Powr, [digit @ b'0'..=b'3']) => Some(Meaning::Power(digit - b'0')),
        (Body::Inpt, _) => {
            let refused = |input: &Input| !input.is_of_class_1() && made(Mistake::ReaderRefusesNewInputs);
            Input::from_characters(parameter).filter(|input| !refused(input)).map(Meaning::Input)
        }
        (Body::Avmt, b"11") => Some(Meaning::Mutes { video: true, audio: false }),
        (Body::Avmt, b"21") => Some(Meaning::Mutes { video: false, audio: true }),
        (Body::Avmt, b"31") => Some(Meaning::Mutes { video: true, audio: true }),
        (Body::Avmt, b"30") => Some(Meaning::Mutes { video: false, audio: false }),
        (Body::Erst, _) => error_digits(parameter).map(Meaning::Errors),
        (Body::Lamp, _) => lamps(parameter).map(Meaning::Lamps),
        (Body::Inst, _) => inputs(parameter).map(Meaning::Inputs),
        (Body::Name, _) => text(parameter, is_name(parameter) || is_old_name(parameter)).map(Meaning::Text),
        (Body::Inf1 | Body::Inf2 | Body::Info, _) => text(parameter, is_information(parameter)).map(Meaning::Text),
        (Body::Clss, b"1") => Some(Meaning::Class(1)),
        // RULES, Class 2: "on a `%1` reply it allows whatever a legal set-up of either class answers there"
        (Body::Clss, b"2") if knows_class_2() && !made(Mistake::ReaderRefusesClass2) => Some(Meaning::Class(2)),
        (Body::Clss, b"3") if made(Mistake::ReaderTakesClass3) => Some(Meaning::Class(3)),
        _ => None,
    }
}

fn query_meaning_2(body: Body2, parameter: &[u8]) -> Option<Meaning> {
    if let Some(refusal) = refusal(parameter) {
        return Some(refusal);
    }
    match (body, parameter) {
        (Body2::Inpt, _) => Input::from_characters(parameter).map(Meaning::Input),
        (Body2::Inst, _) => inputs(parameter).map(Meaning::Inputs),
        (Body2::Frez, b"0" | b"1") => Some(Meaning::Freeze(parameter == b"1")),
        (Body2::Snum | Body2::Sver, b"ERR2") if made(Mistake::SerialErr2Taken) => Some(Meaning::Error(2)),
        (Body2::Snum | Body2::Sver, _) => {
            let long = made(Mistake::ReaderSerialLong) && is_text(parameter, 128);
            text(parameter, is_serial(parameter) || long).map(Meaning::Text)
        }
        _ => None,
    }
}

/// The header: ERR2 is allowed "to PJ_INNM, since a projector may say it of an input that it does not have".
fn name_meaning(parameter: &[u8]) -> Option<Meaning> {
    match parameter {
        b"ERR2" if made(Mistake::NameErr2Refused) => None,
        b"ERR2" => Some(Meaning::Error(2)),
        _ if parameter.len() > 64 && made(Mistake::ReaderName64) => None,
        _ => refusal(parameter).or_else(|| is_input_name(parameter).then(|| Meaning::Text(parameter.to_vec()))),
    }
}

/// "six digits 0 to 2".
fn error_digits(parameter: &[u8]) -> Option<[u8; 6]> {
    let digits: [u8; 6] = parameter.try_into().ok()?;
    digits.iter().all(|digit| (b'0'..=b'2').contains(digit)).then(|| digits.map(|digit| digit - b'0'))
}

/// "LAMP 1 to 8 lamps".
fn lamps(parameter: &[u8]) -> Option<Vec<(u32, bool)>> {
    let words: Vec<&[u8]> = parameter.split(|&b| b == b' ').collect();
    if !words.len().is_multiple_of(2) || words.len() > 16 {
        return None;
    }
    words.chunks_exact(2).map(|pair| Some((hours(pair[0])?, lit(pair[1])?))).collect()
}

fn lit(word: &[u8]) -> Option<bool> {
    match word {
        b"1" => Some(true),
        b"0" => Some(false),
        _ => None,
    }
}

/// "INST allows 1 to 32 inputs, repeats included".
fn inputs(parameter: &[u8]) -> Option<Vec<Input>> {
    let inputs: Vec<Input> = parameter.split(|&b| b == b' ').map(Input::from_characters).collect::<Option<_>>()?;
    let most = match () {
        _ if made(Mistake::ReaderKeepsSixteen) => 16,
        _ if made(Mistake::ReaderTakesMore) => 33,
        _ => 32,
    };
    let refused = made(Mistake::ReaderListsOldInputs) && !inputs.iter().all(|input| input.is_of_class_1());
    (inputs.len() <= most && !refused).then_some(inputs)
}

/// "A text has at most 64 bytes (NAME) or 32, each 0x20 to 0xFF; ERR2 as a text is 12." By RULES, Texts, a name is
/// UTF-8 here as in a set-up, and another is refused "with 12".
fn text(parameter: &[u8], allowed: bool) -> Option<Vec<u8>> {
    let taken = allowed || (parameter == b"ERR2" && made(Mistake::Err2TextTaken));
    taken.then(|| parameter.to_vec())
}

/// The rule on names as it was before, which no longer holds.
fn is_old_name(parameter: &[u8]) -> bool {
    made(Mistake::ReaderKeepsOldNames) && is_text(parameter, LONGEST_NAME)
}

#[cfg(test)]
mod tests {
    use super::*;
    use crate::replay::sample;

    fn lamps_read(parameter: &[u8]) -> Result<Meaning, u32> {
        meaning(Command::Query(Body::Lamp), &[b"%1LAMP=", parameter, b"\r"].concat())
    }

    #[test]
    fn hours_of_other_makers() {
        assert_eq!(lamps_read(b"00412 1"), Ok(Meaning::Lamps(vec![(412, true)])));
        assert_eq!(lamps_read(b"00000 0"), Ok(Meaning::Lamps(vec![(0, false)])));
        assert_eq!(lamps_read(b"412 1 0412 0"), Ok(Meaning::Lamps(vec![(412, true), (412, false)])));
        for refused in [&b"000000 0"[..], b" 0", b"000412 1", b"412 01", b"00412 1 "] {
            assert_eq!(lamps_read(refused), Err(PARAMETER_NOT_ALLOWED));
        }
    }

    /// RULES, Controller: "Our own projector still writes no leading zero, and our reader must still return what it
    /// meant."
    #[test]
    fn own_hours_are_read_back() {
        let mut projector = sample();
        projector.enabled = vec![true; 8];
        for first in (0..100_000).step_by(8) {
            let hours: Vec<u32> = (first..first + 8).collect();
            projector.lamps = hours.iter().map(|hours| 3600 * hours + first % 3600).collect();
            let reply = projector.answer(b"LAMP", b"?");
            let read = meaning(Command::Query(Body::Lamp), &reply);
            assert_eq!(read, Ok(Meaning::Lamps(hours.iter().map(|&hours| (hours, false)).collect())));
            let mut words = reply[7..reply.len() - 1].split(|&byte| byte == b' ').step_by(2);
            assert!(words.all(|word| word == b"0" || word[0] != b'0'));
        }
    }
}
