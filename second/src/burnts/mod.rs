//! `burnt` by the thousand, and `replay` on stored forms: for each log, made from a seed, half of them with a form in a
//! file, the program prints what these rules print, byte for byte, whatever the sizes of the reads; and the logs of a run
//! would show each deliberate mistake of `burnt::mistakes`.

mod every;
mod forms;
mod kinds;
mod making;
mod met;
mod report;
mod started;

pub use every::FormAndLog;
pub use met::Met;
pub use report::Difference;

use crate::burnt::mistakes::{BURNT, REPLAY, SAYING, Wrong};
use crate::burnt::{self, burnt_on};
use crate::compare::random::Random;
use crate::compare::recorded::making::any_seconds;
use crate::compare::shrink::{self, Smaller, simpler_forms};
use crate::logs::workers::on_all;
use crate::logs::{Fed, Program, TRIES, every_history, recorded};
use crate::replay::history::is_history;
use crate::replay::{self, Due, device, lines, replayed_on, sample};
pub use started::Started;

/// The logs that have everything of a kind come first; then histories, on the sample set-up and on a form in turn.
fn fixed() -> usize {
    every::LOGS.len() + every_history::ON_FORM.len()
}

/// Which program it is that is compared.
#[derive(Clone, Copy, PartialEq, Eq, Debug)]
pub enum Played {
    Burnt,
    Replay,
}

impl Played {
    /// What it prints by these rules.
    pub fn printed(self, case: &Case) -> Vec<u8> {
        match self {
            Played::Burnt => burnt_on(case.form(), &case.fed.log),
            Played::Replay => replayed_on(case.form(), &case.fed.log),
        }
    }

    /// How it ends by these rules, and what it says.
    pub fn due(self, case: &Case) -> Due {
        match self {
            Played::Burnt => burnt::due(case.form(), &case.fed.log),
            Played::Replay => replay::due(case.form(), &case.fed.log),
        }
    }

    /// Those over what is said on standard error are for `burnt` here; `logs` has them for `replay`.
    pub fn mistakes(self) -> impl Iterator<Item = &'static (&'static str, Wrong)> {
        let (printed, said) = match self {
            Played::Burnt => (BURNT, SAYING),
            Played::Replay => (REPLAY, &[][..]),
        };
        printed.iter().chain(said)
    }
}

/// The form that is given to a program, if one is, and the log; where it stands in several files, where each but the first
/// begins.
#[derive(Clone, PartialEq, Eq, Debug)]
pub struct Case {
    pub form: Option<Vec<u8>>,
    pub fed: Fed,
    pub files: Vec<usize>,
}

impl Case {
    /// The one of a seed with that number.
    pub fn nth(seed: u64, number: usize) -> Case {
        let mut random = Random::new(Random::new(seed.wrapping_add(number as u64)).number());
        let history = number.checked_sub(every::LOGS.len()).filter(|at| *at < every_history::ON_FORM.len());
        match (every::LOGS.get(number), history) {
            (Some(every), _) => Case::new(&mut random, every(), number),
            (None, Some(at)) => Case::new(&mut random, history_at(at), number),
            (None, None) => {
                let case = made(&mut random, number);
                Case::new(&mut random, case, number)
            }
        }
    }

    /// One log in two comes in small reads. Where there is a form, one in four comes in files.
    pub fn new(random: &mut Random, (form, log): FormAndLog, number: usize) -> Case {
        let is_in_files = form.is_some() && random.one_in(4);
        let files = if is_in_files { files(random, &log) } else { Vec::new() };
        Case { form, fed: Fed::new(random, log, number % 2 == 1), files }
    }

    pub fn form(&self) -> Option<&[u8]> {
        self.form.as_deref()
    }
}

fn history_at(at: usize) -> FormAndLog {
    match every_history::ON_SAMPLE.get(at) {
        Some(log) if at.is_multiple_of(2) => (None, log.clone()),
        _ => (Some(every_history::form()), every_history::ON_FORM[at].clone()),
    }
}

pub fn form_of(random: &mut Random, number: usize) -> Option<Vec<u8>> {
    (number / 2 % 2 == 1).then(|| forms::form(random))
}

/// Where files begin: those of a chain at each header, more often than not; else anywhere, also within a line.
fn files(random: &mut Random, log: &[u8]) -> Vec<usize> {
    if is_history(log) && !random.one_in(4) {
        let mut at = 0;
        let begins = lines(log).map(|line| {
            at += line.len();
            (at - line.len(), line)
        });
        return begins.filter(|(at, line)| *at > 0 && is_history(line)).map(|(at, _)| at).collect();
    }
    let mut files: Vec<usize> = (0..random.from_to(1, 3)).map(|_| random.below(log.len() + 1)).collect();
    files.sort_unstable();
    files
}

/// A random log, one in four a history. One in two comes with a form.
pub fn made(random: &mut Random, number: usize) -> FormAndLog {
    let form = form_of(random, number);
    let start = device(form.as_deref()).unwrap_or_else(|_| sample());
    let log = match random.below(4) {
        0 => recorded::log(random, form.as_deref(), &mut any_seconds),
        _ => making::log(random, start),
    };
    (form, log)
}

impl Smaller for Case {
    /// Without the form first, then a smaller log, then a simpler form.
    fn smaller(&self) -> impl Iterator<Item = Case> {
        let without = self.form.is_some().then(|| Case { form: None, files: Vec::new(), ..self.clone() });
        let fewer = shrink::shorter(&self.files).map(|files| Case { files, ..self.clone() });
        let within = |fed: &Fed| self.files.iter().map(|&at| at.min(fed.log.len())).collect();
        let logs = self.fed.smaller().map(move |fed| Case { form: self.form.clone(), files: within(&fed), fed });
        let forms = self.form.iter().flat_map(|form| simpler_forms(form));
        let forms = forms.map(|form| Case { form: Some(form), ..self.clone() });
        without.into_iter().chain(fewer).chain(logs).chain(forms)
    }
}

/// The logs of a seed, so many random ones, on all processors: what they met, or the first that differs, cut down.
pub fn compare(program: &Program, played: Played, seed: u64, count: usize) -> Result<Met, Box<Difference>> {
    let started = Started::new(program, played);
    let none = || Met::new(played);
    let met = on_all(fixed() + count, none, |number, met| {
        let case = Case::nth(seed, number);
        let expected = played.printed(&case);
        if started.printed(&case, number) != expected {
            return Err((number, case));
        }
        met.count(&case, &expected);
        Ok(())
    });
    met.map(|all| all.into_iter().fold(none(), Met::and)).map_err(|(number, case)| {
        let differs = |case: &Case| started.printed(case, number) != played.printed(case);
        let case = shrink::smallest(case, TRIES, differs);
        let (expected, given) = (played.printed(&case), started.printed(&case, number));
        Box::new(Difference { number, case, expected, given })
    })
}

#[cfg(test)]
mod tests {
    use super::*;
    use crate::burnt::RIGHT;

    fn met(played: Played, seed: u64, count: usize) -> Met {
        (0..fixed() + count).fold(Met::new(played), |mut met, number| {
            let case = Case::nth(seed, number);
            met.count(&case, &played.printed(&case));
            met
        })
    }

    /// Every kind of form, of `M` line and of stretch, and not just once.
    #[test]
    fn logs_meet_everything() {
        let met = met(Played::Burnt, 3, 300);
        for kind in kinds::KINDS {
            assert!(met.times(kind) >= 3, "{kind}: {}", met.times(kind));
        }
        for kind in recorded::KINDS {
            assert!(met.times(kind) >= 1, "{kind}: {}", met.times(kind));
        }
    }

    /// Random logs show each mistake, several of them, but for one that needs more lines than they have.
    #[test]
    fn logs_show_the_mistakes() {
        let cases: Vec<Case> = (every::LOGS.len()..fixed() + 300).map(|number| Case::nth(4, number)).collect();
        for played in [Played::Burnt, Played::Replay] {
            let right: Vec<Vec<u8>> = cases.iter().map(|case| played.printed(case)).collect();
            for (words, wrong) in
                played.mistakes().filter(|(words, _)| !words.starts_with("a line's number has 16 bits"))
            {
                let shows = |case: &Case, right: &[u8]| wrong.printed(case.form(), &case.fed.log) != right;
                let shown = cases.iter().zip(&right).filter(|(case, right)| shows(case, right)).count();
                assert!(shown >= 2, "{words}: {shown}");
            }
        }
    }

    /// What makes the mistakes makes none by itself.
    #[test]
    fn no_mistake_no_difference() {
        let none = [
            Wrong::Takes(RIGHT),
            Wrong::Log(<[u8]>::to_vec),
            Wrong::Tells(|_, _| None),
            Wrong::Prints(str::to_string),
            Wrong::Plays(burnt_on),
        ];
        for number in 0..fixed() + 50 {
            let case = Case::nth(5, number);
            let right = burnt_on(case.form(), &case.fed.log);
            assert!(none.iter().all(|wrong| wrong.printed(case.form(), &case.fed.log) == right), "log {number}");
        }
    }

    /// A program that prints what it reads: different at once, and cut down to nothing.
    #[test]
    fn a_difference_is_cut_down() {
        let cat = Program(vec!["sh".to_string(), "-c".to_string(), "cat".to_string()]);
        let Err(difference) = compare(&cat, Played::Burnt, 1, 1) else { panic!("cat tells stretches") };
        let fed = Fed { log: Vec::new(), reads: Vec::new() };
        assert_eq!(difference.case, Case { form: None, fed, files: Vec::new() });
        assert_eq!(difference.given, b"");
    }
}
