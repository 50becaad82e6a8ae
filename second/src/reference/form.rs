//! RULES, Stored form: settings that survive a board swap. "The form is the version byte 1, then sections in a fixed
//! order, each after its count (of bytes, inputs or lamps) in one byte: name, maker, model, other, password, inputs
//! (two ASCII digits each), lamps (seconds as four bytes); last W and C as two bytes each; all highest first." Since
//! lamps have marks it "becomes version 2 with a section of marks, one byte 0 or 1 each, after the lamps; version 1
//! loads with all set. Each version has one form; the newest is written." Since Class 2 it "becomes version 3, with a
//! last byte for the class and, after it for Class 2 only, those texts in that order, each after its count; an input
//! there is its two characters. Versions 1 and 2 load as Class 1."

use super::class::{Class, LONGEST_INPUT_NAME, LONGEST_SERIAL, Texts};
use super::rules::{Mistake, knows_class_2, made};
use super::set_up::{LONGEST_INFORMATION, LONGEST_NAME, LONGEST_PASSWORD, MOST_INPUTS, MOST_LAMPS, in_range};
use crate::face;

/// The version without marks, the one with them, and the one with a class.
const OLD: u8 = 1;
const MARKED: u8 = 2;
const CLASSED: u8 = 3;
/// What one of a section's count takes.
const BYTE: usize = 1;
const INPUT: usize = 2;
const LAMP: usize = 4;

/// "The reader answers new numbers 20 (unknown version), 21 (cut short), 22 (bytes left over), 23 (contents not legal
/// ..), tested in that order".
pub const OTHER_VERSION: u32 = 20;
pub const CUT_SHORT: u32 = 21;
pub const LEFT_OVER: u32 = 22;
pub const CONTENTS: u32 = 23;

/// The version, eight counts, one input, W and C, and the class; and with every section as long as the rules allow: in
/// version 2, and in version 3 with the texts of Class 2.
pub const SHORTEST: usize = 1 + 8 + INPUT + 4 + 1;
pub const LONGEST_MARKED: usize = SHORTEST - 1 - INPUT
    + LONGEST_NAME
    + 3 * LONGEST_INFORMATION
    + LONGEST_PASSWORD
    + INPUT * MOST_INPUTS
    + LAMP * MOST_LAMPS
    + MOST_LAMPS;
pub const LONGEST: usize = LONGEST_MARKED + 1 + 2 * (1 + LONGEST_SERIAL) + MOST_INPUTS * (1 + LONGEST_INPUT_NAME);

/// What stands in a form: what a set-up would be lent, from version 2 on the bytes of its marks, and in version 3 its
/// class.
#[derive(Clone, PartialEq, Eq, Debug, Default)]
pub struct Stored {
    pub lent: face::Lent,
    pub marks: Option<Vec<u8>>,
    pub class: Option<StoredClass>,
}

/// The byte for the class, and the texts that stand after it exactly if it is 2.
#[derive(Clone, PartialEq, Eq, Debug, Default)]
pub struct StoredClass {
    pub byte: u8,
    pub texts: Texts,
}

impl StoredClass {
    pub fn of(class: &Class) -> StoredClass {
        let texts = if let Class::Two(texts) = class { texts.clone() } else { Texts::default() };
        StoredClass { byte: class.number(), texts }
    }

    /// None where the byte is neither 1 nor 2.
    pub fn class(self) -> Option<Class> {
        match self.byte {
            1 => Some(Class::One),
            2 => Some(Class::Two(self.texts)),
            _ => None,
        }
    }
}

fn newest() -> u8 {
    if knows_class_2() { CLASSED } else { MARKED }
}

/// The form of settings, marks and class; of ones that no set-up takes, what would stand in their form.
pub fn written(stored: &Stored) -> Vec<u8> {
    let Stored { lent, marks, class } = stored;
    let marks = marks.as_ref().filter(|marks| !(made(Mistake::OldWritten) && marks.iter().all(|&mark| mark == 1)));
    let in_version_2 = |class: &&StoredClass| class.byte == 1 && made(Mistake::Class1InVersion2);
    let class = class.as_ref().filter(|class| marks.is_some() && !in_version_2(class));
    let lamps: Vec<u8> = lent.lamps.iter().flat_map(|&seconds| highest_first(seconds, LAMP)).collect();
    let mut form = vec![match (marks, class) {
        (None, _) => OLD,
        (_, None) => MARKED,
        _ => CLASSED,
    }];
    for text in [&lent.name, &lent.maker, &lent.model, &lent.other, &lent.password] {
        put_section(&mut form, text, BYTE);
    }
    put_section(&mut form, &lent.inputs, INPUT);
    let before = made(Mistake::MarksBeforeLamps);
    if let Some(marks) = marks.filter(|_| before) {
        put_marks(&mut form, marks);
    }
    put_section(&mut form, &lamps, LAMP);
    if let Some(marks) = marks.filter(|_| !before && !made(Mistake::MarksLast)) {
        put_marks(&mut form, marks);
    }
    let (first, last) = if made(Mistake::CoolFirst) { (lent.cool, lent.warm) } else { (lent.warm, lent.cool) };
    form.extend(highest_first(first, 2));
    form.extend(highest_first(last, 2));
    if let Some(marks) = marks.filter(|_| made(Mistake::MarksLast)) {
        put_marks(&mut form, marks);
    }
    if let Some(class) = class {
        put_class(&mut form, class);
    }
    form
}

fn put_class(form: &mut Vec<u8>, class: &StoredClass) {
    let StoredClass { byte, texts: Texts { serial, version, names } } = class;
    if made(Mistake::ClassFirst) {
        form.insert(1, *byte);
    } else {
        form.push(*byte);
    }
    if *byte != 2 {
        return;
    }
    [serial, version].into_iter().for_each(|text| put_section(form, text, BYTE));
    if made(Mistake::NamesCounted) {
        form.push(names.len() as u8);
    }
    let none = &Vec::new();
    let stored = |name| if made(Mistake::NamesNotStored) { none } else { name };
    let past = if made(Mistake::ThirtyTwoNames) { MOST_INPUTS.saturating_sub(names.len()) } else { 0 };
    let names = names.iter().map(stored).chain(std::iter::repeat_n(none, past));
    names.for_each(|name| put_section(form, name, BYTE));
}

fn put_marks(form: &mut Vec<u8>, marks: &[u8]) {
    if made(Mistake::MarksInBits) {
        let bits = marks.iter().enumerate().fold(0, |bits, (lamp, &mark)| bits | (mark & 1) << (lamp % 8));
        return form.extend([1, bits]);
    }
    put_section(form, marks, BYTE);
}

fn put_section(form: &mut Vec<u8>, bytes: &[u8], size: usize) {
    let size = if made(Mistake::CountsInBytes) { BYTE } else { size };
    form.push((bytes.len() / size) as u8);
    form.extend_from_slice(bytes);
}

/// "all highest first".
fn highest_first(number: u32, count: usize) -> Vec<u8> {
    let mut bytes = number.to_be_bytes()[4 - count..].to_vec();
    if made(Mistake::LowestFirst) {
        bytes.reverse();
    }
    bytes
}

/// What stands in a form, whatever it is, and the bytes left over after it. "empty input is 21".
pub fn read(bytes: &[u8]) -> Result<(Stored, &[u8]), u32> {
    let Some((&version, rest)) = bytes.split_first() else {
        return Err(if made(Mistake::EmptyIsOtherVersion) { OTHER_VERSION } else { CUT_SHORT });
    };
    match version {
        OLD if made(Mistake::OldRefused) => Err(OTHER_VERSION),
        OLD if made(Mistake::OldHasMarks) => read_sections(rest, MARKED),
        MARKED if made(Mistake::VersionTwoRefused) => Err(OTHER_VERSION),
        OLD | MARKED => read_sections(rest, version),
        CLASSED if knows_class_2() => read_sections(rest, version),
        0 if made(Mistake::VersionZeroTaken) => read_sections(rest, newest()),
        4 if made(Mistake::VersionFourTaken) => read_sections(rest, newest()),
        _ if made(Mistake::VersionLast) && read_sections(rest, newest()).is_err() => Err(CUT_SHORT),
        _ => Err(OTHER_VERSION),
    }
}

fn read_sections(mut rest: &[u8], version: u8) -> Result<(Stored, &[u8]), u32> {
    let mut stored = Stored::default();
    match fill(&mut stored, &mut rest, version) {
        Ok(()) => Ok((stored, rest)),
        Err(_) if made(Mistake::ContentsBeforeEnd) && is_wrong_so_far(&stored.lent) => Err(CONTENTS),
        Err(number) => Err(number),
    }
}

/// The sections in their order, as far as they go.
fn fill(stored: &mut Stored, rest: &mut &[u8], version: u8) -> Result<(), u32> {
    let Stored { lent, marks, class } = stored;
    let marked = version >= MARKED;
    let first = if version >= CLASSED && made(Mistake::ClassFirst) { Some(take(rest, 1)?[0]) } else { None };
    lent.name = section(rest, BYTE, LONGEST_NAME)?.to_vec();
    lent.maker = section(rest, BYTE, LONGEST_INFORMATION)?.to_vec();
    lent.model = section(rest, BYTE, LONGEST_INFORMATION)?.to_vec();
    lent.other = section(rest, BYTE, LONGEST_INFORMATION)?.to_vec();
    lent.password = section(rest, BYTE, LONGEST_PASSWORD)?.to_vec();
    lent.inputs = section(rest, INPUT, MOST_INPUTS)?.to_vec();
    if marked && made(Mistake::MarksBeforeLamps) {
        *marks = Some(section(rest, BYTE, MOST_LAMPS)?.to_vec());
    }
    lent.lamps = section(rest, LAMP, MOST_LAMPS)?.chunks(LAMP).map(number).collect();
    if marked && !made(Mistake::MarksBeforeLamps) && !made(Mistake::MarksLast) {
        *marks = Some(marks_section(rest, lent.lamps.len())?);
    }
    lent.warm = number(take(rest, 2)?);
    lent.cool = number(take(rest, 2)?);
    if marked && made(Mistake::MarksLast) {
        *marks = Some(section(rest, BYTE, MOST_LAMPS)?.to_vec());
    }
    if made(Mistake::CoolFirst) {
        (lent.warm, lent.cool) = (lent.cool, lent.warm);
    }
    if version >= CLASSED {
        *class = Some(class_section(rest, lent.inputs.len() / INPUT, first)?);
    }
    Ok(())
}

/// The header: "In Class 1 that is the last, and so is a byte that is no class. In Class 2 the serial number, the
/// software version and a name for each of the inputs follow".
fn class_section(rest: &mut &[u8], inputs: usize, first: Option<u8>) -> Result<StoredClass, u32> {
    let mut byte = match first {
        Some(byte) => byte,
        None => take(rest, 1)?[0],
    };
    let is_other = ![1, 2].contains(&byte);
    if is_other && made(Mistake::OtherClassIsOtherVersion) {
        return Err(OTHER_VERSION);
    }
    if is_other && made(Mistake::OtherClassBeforeLeftOver) {
        return Err(CONTENTS);
    }
    let mut texts = Texts::default();
    if byte == 2 || is_other && made(Mistake::OtherClassHasTexts) {
        texts.serial = section(rest, BYTE, LONGEST_SERIAL)?.to_vec();
        texts.version = section(rest, BYTE, LONGEST_SERIAL)?.to_vec();
        let names = match () {
            _ if made(Mistake::NamesCounted) => usize::from(take(rest, 1)?[0]),
            _ if made(Mistake::ThirtyTwoNames) => MOST_INPUTS,
            _ => inputs,
        };
        for _ in 0..names {
            texts.names.push(section(rest, BYTE, LONGEST_INPUT_NAME)?.to_vec());
        }
        if made(Mistake::ThirtyTwoNames) {
            texts.names.truncate(inputs);
        }
    }
    if is_other && made(Mistake::OtherClassIsOne) {
        byte = 1;
    }
    Ok(StoredClass { byte, texts })
}

/// As every section: its own count says how many there are.
fn marks_section(rest: &mut &[u8], lamps: usize) -> Result<Vec<u8>, u32> {
    if made(Mistake::MarksNotCounted) {
        return Ok(take(rest, lamps)?.to_vec());
    }
    if made(Mistake::MarksCountBeforeEnd) && rest.first().is_some_and(|&count| usize::from(count) != lamps) {
        return Err(CONTENTS);
    }
    let marks = section(rest, BYTE, MOST_LAMPS)?.to_vec();
    if made(Mistake::MarksInBits) {
        return Ok((0..lamps).map(|lamp| marks.first().unwrap_or(&0) >> (lamp % 8) & 1).collect());
    }
    Ok(marks)
}

/// A section after its count. What the rules allow at most does not matter before all of the form is read.
fn section<'a>(rest: &mut &'a [u8], size: usize, most: usize) -> Result<&'a [u8], u32> {
    let count = usize::from(take(rest, 1)?[0]);
    if count > most && made(Mistake::CountBeforeEnd) {
        return Err(CONTENTS);
    }
    take(rest, if made(Mistake::CountsInBytes) { count } else { count * size })
}

/// So many bytes, or 21 where the form ends before them.
fn take<'a>(rest: &mut &'a [u8], count: usize) -> Result<&'a [u8], u32> {
    let (taken, left) = rest.split_at_checked(count).ok_or(CUT_SHORT)?;
    *rest = left;
    Ok(taken)
}

fn number(bytes: &[u8]) -> u32 {
    let joined = |number: u32, byte: &u8| number << 8 | u32::from(*byte);
    if made(Mistake::LowestFirst) { bytes.iter().rev().fold(0, joined) } else { bytes.iter().fold(0, joined) }
}

/// Whether a section that was read is out of its range already. Inputs and lamps that were not are empty.
fn is_wrong_so_far(lent: &face::Lent) -> bool {
    let [name, maker, model, other, password, inputs, lamps, ..] = in_range(lent);
    !(name && maker && model && other && password && (inputs || lent.inputs.is_empty()) && lamps)
}
