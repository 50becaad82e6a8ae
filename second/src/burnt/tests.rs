//! `burnt` on logs written out by hand.

use super::burnt_on;
use crate::compare::forms::{least, marked, old};
use crate::face::Lent;

fn printed(form: Option<&[u8]>, log: &str) -> String {
    String::from_utf8(burnt_on(form, log.as_bytes())).unwrap()
}

/// Lamps with these seconds and marks, W 2 and C 3.
fn lamps(seconds: &[u32], marks: &[u8]) -> Vec<u8> {
    marked(&Lent { lamps: seconds.to_vec(), warm: 2, cool: 3, ..least() }, marks)
}

/// RULES, Commands: "nine rounds of power-on, 2,400 s, power-off, 60 s".
#[test]
fn nine_rounds() {
    let log = format!("O 00000000\n{}", "R %1POWR 1\nT 2400\nR %1POWR 0\nT 60\n".repeat(9));
    let stretches: String =
        (0..9).map(|round| format!("lamp 1 from {} to {}\n", 2460 * round, 2460 * round + 2400)).collect();
    assert_eq!(printed(None, &log), stretches + "lamp 1 start 0 burnt 21600 now 21600\n");
}

/// Off, on, in warm-up and in cooling; a second counts where it is passed, not where it is told.
#[test]
fn power() {
    let log = "T 5\nO 00000000\nR %1POWR 1\nT 19\nR %1POWR 0\nT 0\nX\nT 10\nO 00000000\nR %1POWR 0\nR %1POWR 1\nT 59\n";
    let told = "lamp 1 from 5 to 34\nlamp 1 start 0 burnt 29 now 29\n";
    assert_eq!(printed(None, log), told);
    assert_eq!(printed(None, &format!("{log}R %1POWR 1\nT 3\nR %1POWR 1\n")), told);
}

/// "at the end of the log a stretch still burning is told up to the log's last second"; "A stretch with no second is
/// not printed."
#[test]
fn at_the_end() {
    let none = "lamp 1 start 0 burnt 0 now 0\n";
    assert_eq!(printed(None, ""), none);
    assert_eq!(printed(None, "O 00000000\nT 7\nR %1POWR 1\nT 0\n"), none);
    let one = "lamp 1 from 7 to 8\nlamp 1 start 0 burnt 1 now 1\n";
    assert_eq!(printed(None, "O 00000000\nT 7\nR %1POWR 1\nT 1\n"), one);
    assert_eq!(printed(None, "O 00000000\nT 7\nR %1POWR 1\nT 1"), one, "the last line without LF");
}

/// Two of three lamps burn and end together; then another two. A mark while the power is not off is refused.
#[test]
fn marks() {
    let round = "R %1POWR 1\nM 2 1\nT 10\nM 1 0\nR %1POWR 0\nM 1 0\nT 3\n";
    let log = format!("O 00000000\nM 2 0\n{round}M 2 1\nM 1 0\n{round}");
    let told = "lamp 1 from 0 to 10\nlamp 3 from 0 to 10\nlamp 2 from 13 to 23\nlamp 3 from 13 to 23\n\
                lamp 1 start 5 burnt 10 now 15\nlamp 2 start 6 burnt 10 now 16\nlamp 3 start 7 burnt 20 now 27\n";
    assert_eq!(printed(Some(&lamps(&[5, 6, 7], &[1, 1, 1])), &log), told);
}

/// "A lamp number in an `M` line that is no lamp of the device, or a mark call that is refused, changes nothing; an `M`
/// line not of the exact form changes nothing."
#[test]
fn no_marks() {
    let log = "M 2 0\nM 0 1\nM 3 1\nM 9 1\nM 1 1 \nM 1 2\nM  1 1\nm 1 1\nM 257 1\nM 11\nM 1 1\r\n M 1 1\nM 1\nM 1  1\n";
    let log = format!("{log}O 00000000\nR %1POWR 1\nT 4");
    let told = "lamp 2 from 0 to 4\nlamp 1 start 0 burnt 0 now 0\nlamp 2 start 0 burnt 4 now 4\n";
    assert_eq!(printed(Some(&lamps(&[0, 0], &[0, 1])), &log), told);
}

/// "`burnt` is the sum of the lengths (also where the lamp's own counter stopped at its limit), `now` the lamp's
/// counter."
#[test]
fn at_the_limit() {
    let log = "O 00000000\nT 4294967295\nR %1POWR 1\nT 4294967295\nT 5\nR %1POWR 0\nT 3\nR %1POWR 1\nT 1\n";
    let told = "lamp 1 from 4294967295 to 8589934595\nlamp 1 from 8589934598 to 8589934599\n\
                lamp 1 start 359999998 burnt 4294967301 now 359999999\n";
    assert_eq!(printed(Some(&lamps(&[359_999_998], &[1])), log), told);
}

/// "a form that does not load gives its number in one line, and nothing else"; "version 1 loads with all set" (RULES,
/// Stored form).
#[test]
fn forms() {
    let log = "O 00000000\nR %1POWR 1\nT 4\n";
    for (form, number) in [(&b""[..], 21), (b"\x04", 20), (b"\x01\0", 21)] {
        assert_eq!(printed(Some(form), log), format!("! {number}\n"));
    }
    let form = lamps(&[5], &[1]);
    assert_eq!(printed(Some(&[&form[..], b"\0"].concat()), log), "! 22\n");
    assert_eq!(printed(Some(&lamps(&[5], &[0])), log), "! 23\n");
    let two = old(&Lent { lamps: vec![5, 6], ..least() });
    let told = "lamp 1 from 0 to 4\nlamp 2 from 0 to 4\nlamp 1 start 5 burnt 4 now 9\nlamp 2 start 6 burnt 4 now 10\n";
    assert_eq!(printed(Some(&two), log), told);
    assert_eq!(printed(Some(&old(&least())), log), "", "no lamps");
}
