//! Bytes that the rules speak of: letters and digits, hex digits, decimal numbers, inputs.

use super::rules::{Mistake, knows_class_2, made};

pub const CR: u8 = b'\r';
pub const LF: u8 = b'\n';

/// "ASCII letters and digits".
pub fn all_letters_or_digits(bytes: &[u8]) -> bool {
    bytes.iter().all(|b| b.is_ascii_alphanumeric())
}

/// "the random number as eight lowercase hex digits".
pub fn eight_hex_digits(random: u32) -> [u8; 8] {
    let mut digits = [0; 8];
    for (place, digit) in digits.iter_mut().enumerate() {
        *digit = b"0123456789abcdef"[(random >> (28 - 4 * place)) as usize & 15];
    }
    digits
}

/// The number that eight lowercase hex digits stand for.
pub fn hex_number(digits: &[u8]) -> Option<u32> {
    if digits.len() != 8 {
        return None;
    }
    let mut number = 0;
    for &digit in digits {
        let value = match digit {
            b'0'..=b'9' => digit - b'0',
            b'a'..=b'f' => digit - b'a' + 10,
            _ => return None,
        };
        number = number * 16 + u32::from(value);
    }
    Some(number)
}

/// "An input has a type 1 to 5 (RGB, VIDEO, DIGITAL, STORAGE, NETWORK) and a number 1 to 9." RULES, Class 2, adds
/// "inputs of type 6 and with letters", A to Z, whose numbers are 10 to 35. A set-up of Class 1 has none of these.
#[derive(Clone, Copy, PartialEq, Eq, Debug)]
pub struct Input {
    pub kind: u8,
    pub number: u8,
}

impl Input {
    pub fn new(kind: u8, number: u8) -> Option<Input> {
        let input = Input { kind, number };
        let is_one = if knows_class_2() { input.is_of_class_2() } else { input.is_of_class_1() };
        is_one.then_some(input)
    }

    /// "So 11 and 59 are legal; 10, 20 and 61 are not."
    pub fn is_of_class_1(self) -> bool {
        let kinds = if made(Mistake::SixthInputType) { 6 } else { 5 };
        (1..=kinds).contains(&self.kind) && (1..=9).contains(&self.number)
    }

    fn is_of_class_2(self) -> bool {
        let most = if made(Mistake::LettersFromEleven) { 36 } else { 35 };
        (1..=6).contains(&self.kind) && (1..=most).contains(&self.number)
    }

    pub fn from_characters(characters: &[u8]) -> Option<Input> {
        match characters {
            [kind @ b'0'..=b'9', number @ b'0'..=b'9'] => Input::new(kind - b'0', number - b'0'),
            [kind @ b'0'..=b'9', letter @ b'A'..=b'Z'] => Input::new(kind - b'0', letter - b'A' + letter_a()),
            _ => None,
        }
    }

    pub fn characters(self) -> [u8; 2] {
        let letter = |number: u8| if number < letter_a() { b':' } else { b'A' + (number - letter_a()) };
        [b'0' + self.kind, if self.number < 10 { b'0' + self.number } else { letter(self.number) }]
    }
}

/// The number of the first letter.
fn letter_a() -> u8 {
    if made(Mistake::LettersFromEleven) { 11 } else { 10 }
}

/// RULES, Controller: "The number reader should take one to five digits, leading zeros included; six digits stay 12."
pub fn hours(digits: &[u8]) -> Option<u32> {
    if !digits.iter().all(|digit| digit.is_ascii_digit()) || hours_refused(digits) {
        return None;
    }
    let base = if padded(digits) && made(Mistake::HoursInOctal) { 8 } else { 10 };
    let value = |digit: &u8| u32::from(digit - b'0');
    digits.iter().map(value).try_fold(0, |number, value| (value < base).then_some(number * base + value))
}

/// Whether there are too few digits or too many.
fn hours_refused(digits: &[u8]) -> bool {
    if padded(digits) && (made(Mistake::PaddingRefused) || made(Mistake::OnlyFivePadded) && digits.len() != 5) {
        return true;
    }
    let zeros = digits.iter().take_while(|&&digit| digit == b'0').count();
    let counted = if made(Mistake::PaddingNotCounted) { digits.len() - zeros } else { digits.len() };
    let most = if made(Mistake::SixDigitsTaken) { 6 } else { 5 };
    counted > most || digits.is_empty() && !made(Mistake::NoDigitsTaken)
}

fn padded(digits: &[u8]) -> bool {
    digits.len() > 1 && digits[0] == b'0'
}

#[cfg(test)]
mod tests {
    use super::hours;

    #[test]
    fn one_to_five_digits() {
        for width in 1..=5 {
            for number in 0..10u32.pow(width as u32) {
                assert_eq!(hours(format!("{number:0width$}").as_bytes()), Some(number));
            }
        }
    }

    #[test]
    fn six_digits_or_none() {
        for number in 0..1_000_000 {
            assert_eq!(hours(format!("{number:06}").as_bytes()), None);
        }
        for digits in ["", "0000000", "4294967296", "18446744073709551616", "+1", "-0", " 1", "1 ", "0x1", "4/2", "4:2"]
        {
            assert_eq!(hours(digits.as_bytes()), None, "{digits}");
        }
    }
}
