//! `burnt --page` by the thousand: for each log, made from a seed, half of them with a form in a file, the page that the
//! program prints is read back, and has to show what these rules draw of the log. Each page that does is then given the
//! deliberate mistakes of `mistakes`, and each of these has to be seen.

mod clock;
mod drawn;
mod html;
mod making;
mod met;
mod mistakes;
mod read;
mod report;
mod shows;
mod values;

pub use clock::{Moment, moment};
pub use making::nth;
pub use met::Met;
pub use report::Difference;

use crate::burnt::told;
use crate::burnts::{Case, Played, Started};
use crate::compare::random::Random;
use crate::compare::shrink;
use crate::logs::workers::on_all;
use crate::logs::{Program, TRIES};
pub use drawn::{Asked, Files};
use drawn::{Drawn, drawn};
use making::FIXED;
use mistakes::{MISTAKES, Sheet};
pub use values::{compare as compare_values, values, values_cut};

/// Longer pages are given few mistakes each, but always the last one.
const LONG: usize = 1 << 16;

/// What has to be shown of a log, or the number of a form that does not load.
type Expected = Result<Drawn, u32>;

pub fn expected(form: Option<&[u8]>, log: &[u8], asked: Asked, files: Files) -> Expected {
    told(form, log).map(|told| drawn(told, asked, files))
}

/// What is shown otherwise than it has to be.
pub fn fault(expected: &Expected, printed: &[u8]) -> Result<(), String> {
    match expected {
        Ok(drawn) => {
            let text = str::from_utf8(printed).map_err(|error| format!("it is no text: {error}"))?;
            shows::shows(&read::read(text)?, drawn)
        }
        Err(_) if printed.is_empty() => Ok(()),
        Err(number) => Err(format!("the form does not load ({number}), and something is written")),
    }
}

/// The mistakes that this page was given, by their places in the list; or one of them that was not seen.
fn given(drawn: &Expected, printed: &[u8], random: &mut Random) -> Result<Vec<usize>, &'static str> {
    let (Ok(drawn), Ok(text)) = (drawn, str::from_utf8(printed)) else { return Ok(Vec::new()) };
    let page = read::read(text).expect("it has been read");
    let sheet = Sheet { text, page: &page, drawn };
    let mut given = Vec::new();
    for (place, (words, wrong)) in MISTAKES.iter().enumerate() {
        let is_last = place + 1 == MISTAKES.len();
        if text.len() > LONG && !is_last && !random.one_in(8) {
            continue;
        }
        let Some(mistaken) = wrong(&sheet, random) else { continue };
        let seen = read::read(&mistaken).and_then(|page| shows::shows(&page, drawn)).is_err();
        if !seen {
            return Err(words);
        }
        given.push(place);
    }
    Ok(given)
}

/// The logs of a seed, so many random ones, on all processors: what they met, or the first whose page shows something
/// else, cut down.
pub fn compare(program: &Program, seed: u64, count: usize, asked: Asked) -> Result<Met, Box<Difference>> {
    let started = Started::new(program, Played::Burnt);
    let expected_of = |case: &Case, number| expected(case.form(), &case.fed.log, asked, started.files(case, number));
    let fault_of = |case: &Case, number| fault(&expected_of(case, number), &started.printed(case, number)).err();
    let met = on_all(FIXED + count, Met::default, |number, met| {
        let case = nth(seed, number);
        let expected = expected_of(&case, number);
        let printed = started.printed(&case, number);
        if let Err(words) = fault(&expected, &printed) {
            return Err(Box::new(Difference { number, case, words }));
        }
        match given(&expected, &printed, &mut Random::new(seed.wrapping_add(number as u64))) {
            Ok(given) => met.count(&case, &expected, &given),
            Err(words) => return Err(Box::new(Difference { number, case, words: format!("NOT SEEN: {words}") })),
        }
        Ok(())
    });
    met.map(|all| all.into_iter().fold(Met::default(), Met::and)).map_err(|difference| {
        let Difference { number, case, words } = *difference;
        let case = shrink::smallest(case, TRIES, |case| fault_of(case, number).is_some());
        let words = fault_of(&case, number).unwrap_or(words);
        Box::new(Difference { number, case, words })
    })
}

#[cfg(test)]
mod tests;
