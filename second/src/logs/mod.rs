//! The floor log (RULES) by the thousand: for each log, made from a seed, the program prints what these rules print,
//! byte for byte, whatever the sizes of the reads; and the logs of a run would show each deliberate mistake of
//! `replay::mistakes`.

pub mod damage;
pub mod every;
pub mod every_history;
pub mod making;
mod program;
pub mod recorded;
pub mod report;
pub mod workers;

pub use program::Program;
pub use report::{Difference, Met};

use crate::compare::random::Random;
use crate::compare::shrink::{self, Smaller};
use crate::replay::{LONGEST, due, lines, replayed};
use workers::on_all;

/// How many smaller logs are tried at most, once one differs.
pub const TRIES: usize = 600;

/// No log is fed in many more reads than these.
const READS: usize = 2000;

/// The logs that have everything of a kind come first, each in large reads and in small ones; then histories.
fn fixed() -> usize {
    2 * every::LOGS.len() + every_history::ON_SAMPLE.len()
}

/// A log, and the sizes of the reads in turn; without sizes, as large as the program asks for.
#[derive(Clone, PartialEq, Eq, Debug)]
pub struct Fed {
    pub log: Vec<u8>,
    pub reads: Vec<usize>,
}

impl Fed {
    /// One log in two comes in small reads.
    pub fn nth(seed: u64, number: usize) -> Fed {
        let mut random = Random::new(Random::new(seed.wrapping_add(number as u64)).number());
        let history = number.checked_sub(2 * every::LOGS.len()).and_then(|at| every_history::ON_SAMPLE.get(at));
        let log = match (every::LOGS.get(number / 2), history) {
            (Some(log), _) => log(),
            (None, Some(history)) => history.clone(),
            (None, None) => making::log(&mut random),
        };
        Fed::new(&mut random, log, number % 2 == 1)
    }

    pub fn new(random: &mut Random, log: Vec<u8>, small: bool) -> Fed {
        let reads = if small { sizes(random, log.len()) } else { Vec::new() };
        Fed { log, reads }
    }
}

/// One to six sizes, small ones more often.
fn sizes(random: &mut Random, length: usize) -> Vec<usize> {
    let most = random.pick(&[1, 2, 8, 40, 300, LONGEST]);
    let mut sizes: Vec<usize> = (0..random.from_to(1, 6)).map(|_| random.from_to(1, most)).collect();
    while length * sizes.len() / sizes.iter().sum::<usize>() > READS {
        sizes.push(LONGEST);
    }
    sizes
}

impl Smaller for Fed {
    /// Reads of any size first, then fewer lines, then shorter ones.
    fn smaller(&self) -> impl Iterator<Item = Fed> {
        let whole = (!self.reads.is_empty()).then(|| Fed { log: self.log.clone(), reads: Vec::new() });
        let all: Vec<&[u8]> = lines(&self.log).collect();
        let these = all.clone();
        let fewer =
            shrink::halves(all.len()).map(move |(first, end)| [&these[..first], &these[end..]].concat().concat());
        let shorter = (0..all.len()).flat_map(move |place| {
            let (before, after) = (all[..place].concat(), all[place + 1..].concat());
            shrink::shorter(all[place]).map(move |line| [&before[..], &line, &after].concat())
        });
        whole.into_iter().chain(fewer.chain(shorter).map(|log| Fed { log, reads: self.reads.clone() }))
    }
}

/// The logs of a seed, so many random ones, played by a program on all processors: what they met, or the first that
/// differs, cut down.
pub fn compare(program: &Program, seed: u64, count: usize) -> Result<Met, Box<Difference>> {
    let met = on_all(fixed() + count, Met::default, |number, met| {
        let fed = Fed::nth(seed, number);
        let expected = replayed(&fed.log);
        if program.printed(&fed.log, &fed.reads, &due(None, &fed.log)) != expected {
            return Err((number, fed));
        }
        met.count(&fed.log, &expected);
        Ok(())
    });
    met.map(|all| all.into_iter().fold(Met::default(), Met::and)).map_err(|(number, fed)| {
        let both = |fed: &Fed| {
            let expected = replayed(&fed.log);
            let given = program.printed(&fed.log, &fed.reads, &due(None, &fed.log));
            (expected, given)
        };
        let fed = shrink::smallest(fed, TRIES, |fed| {
            let (expected, given) = both(fed);
            expected != given
        });
        let (expected, given) = both(&fed);
        Box::new(Difference { number, fed, expected, given })
    })
}

#[cfg(test)]
mod tests {
    use super::*;
    use crate::replay::mistakes::{self, Wrong};
    use crate::replay::{Due, play};

    /// Every form with every answer that it can have, every kind of line of no form, and not just once.
    #[test]
    fn logs_meet_everything() {
        let met = (fixed()..fixed() + 400).fold(Met::default(), |mut met, number| {
            let log = Fed::nth(3, number).log;
            met.count(&log, &replayed(&log));
            met
        });
        for kind in report::KINDS {
            assert!(met.times(kind) >= 40, "{kind}: {}", met.times(kind));
        }
    }

    /// The histories that leave nothing to chance show every reason, and each mistake over them.
    #[test]
    fn histories_meet_everything() {
        let met = every_history::ON_SAMPLE.iter().fold(Met::default(), |mut met, log| {
            met.count(log, &replayed(log));
            met
        });
        for kind in recorded::KINDS {
            assert!(met.times(kind) >= 3, "{kind}: {}", met.times(kind));
        }
        let over_them = mistakes::over_histories();
        let missed = met.missed();
        assert!(over_them.iter().all(|(words, _)| !missed.contains(words)), "{missed:?}");
    }

    /// Random logs show each mistake, several of them, but for one that needs more lines than they have.
    #[test]
    fn logs_show_the_mistakes() {
        let logs: Vec<Vec<u8>> = (fixed()..fixed() + 1000).map(|number| Fed::nth(4, number).log).collect();
        let right: Vec<Vec<u8>> = logs.iter().map(|log| replayed(log)).collect();
        let over_lines = mistakes::all().filter(|all| !mistakes::over_histories().iter().any(|over| over.0 == all.0));
        for (words, wrong) in over_lines.filter(|(words, _)| !words.starts_with("a line's number has 16 bits")) {
            let shown = logs.iter().zip(&right).filter(|(log, right)| wrong.replayed(log) != **right).count();
            assert!(shown >= 4, "{words}: {shown}");
        }
    }

    /// What makes the mistakes makes none by itself.
    #[test]
    fn no_mistake_no_difference() {
        let none = [
            Wrong::Log(<[u8]>::to_vec),
            Wrong::Line(|_| None),
            Wrong::Plays(play),
            Wrong::Prints(|number, told| format!("{number} {told}")),
            Wrong::Ends(str::to_string),
        ];
        for number in 0..fixed() + 50 {
            let log = Fed::nth(5, number).log;
            assert!(none.iter().all(|wrong| wrong.replayed(&log) == replayed(&log)), "log {number}");
        }
    }

    /// A program that prints what it reads: different at once, and cut down to nothing.
    #[test]
    fn a_difference_is_cut_down() {
        let Err(difference) = compare(&Program(vec!["cat".to_string()]), 1, 1) else { panic!("cat plays logs") };
        assert_eq!(difference.fed, Fed { log: Vec::new(), reads: Vec::new() });
        assert_eq!(difference.given, b"");
    }

    /// `dd` copies as many reads as it is told to.
    #[test]
    fn reads_have_their_sizes() {
        let copy = |count: &str| {
            let words = ["dd", "bs=1000", "status=none", count];
            let out =
                Program(words.map(str::to_string).to_vec()).printed(b"abcdefghij", &[1, 3], &Due::ended(String::new()));
            out.into_iter().take_while(|&byte| byte != b'(').collect::<Vec<u8>>()
        };
        assert_eq!(copy("count=1"), b"a");
        assert_eq!(copy("count=3"), b"abcde");
        assert_eq!(copy("count=9"), b"abcdefghij");
    }
}
