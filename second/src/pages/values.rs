//! `burnt --csv` by the thousand: for each log the table that the program writes is, byte for byte, the one that these
//! rules write; and so it is where a file of the log that comes last cannot be read. The logs of a run would show each
//! deliberate mistake.

use super::drawn::Asked;
use super::making::FIXED;
use super::{Difference, nth};
use crate::burnt::{Stretch, Told, told};
use crate::burnts::{Case, Played, Started};
use crate::compare::shrink;
use crate::logs::workers::on_all;
use crate::logs::{Program, TRIES};
use crate::replay::lines;
use crate::tally::Tally;
use std::fmt;

const HEADS: &str = "lamp,from,to,seconds,began,ended,note\r\n";

/// What `--csv` writes: "a row for each stretch, below a row of heads", and a last row without a lamp.
pub fn values(told: &Told, asked: Asked) -> String {
    HEADS.to_string() + &rows(told, asked, told.stretches.len()) + &last(told, asked)
}

/// What it writes of a log whose last line has ended, and whose next file cannot be read.
pub fn values_cut(told: &Told, asked: Asked) -> String {
    HEADS.to_string() + &rows(told, asked, told.ended) + ",,,,,,! read failed\r\n"
}

fn rows(told: &Told, asked: Asked, count: usize) -> String {
    told.stretches[..count].iter().map(|(place, stretch)| row(*place, *stretch, asked)).collect()
}

fn row(place: usize, stretch: Stretch, asked: Asked) -> String {
    let Stretch { from, to } = stretch;
    let [began, ended] = [from, to].map(|second| clock(asked, second));
    format!("{},{from},{to},{},{began},{ended},{}\r\n", place + 1, to - from, asked.note(stretch))
}

fn clock(asked: Asked, second: u128) -> String {
    asked.began.map_or(String::new(), |began| began.instant(second))
}

/// "to is the second at which the log ends", and the note is `end of the log`, or what was not played, in quotes.
fn last(told: &Told, asked: Asked) -> String {
    format!(",,{},,,{},{}\r\n", told.seconds, clock(asked, told.seconds), note(told))
}

fn note(told: &Told) -> String {
    match unplayed(told) {
        Some(words) => format!("\"{}\"", words.replace('"', "\"\"")),
        None => "end of the log".to_string(),
    }
}

/// What was not played, a line's end as a space, or why a line does not belong to its history.
fn unplayed(told: &Told) -> Option<String> {
    told.stray.clone().or((!told.unplayed.is_empty()).then(|| told.unplayed.trim_end().replace('\n', " ")))
}

type Wrong = fn(&Told, Asked) -> String;

/// Each writes another table where a log shows it.
const MISTAKES: &[(&str, Wrong)] = &[
    ("the last row is left out", |told, asked| values(told, asked).trim_end_matches(&last(told, asked)).to_string()),
    ("there is no last row where a line does not belong", |told, asked| {
        let all = values(told, asked);
        if told.stray.is_some() { all.trim_end_matches(&last(told, asked)).to_string() } else { all }
    }),
    ("the last row says the end where not all was played", |told, asked| {
        values(told, asked).replace(&note(told), "end of the log")
    }),
    ("the words of what was not played have no quotes", |told, asked| match unplayed(told) {
        Some(words) => values(told, asked).replace(&note(told), &words),
        None => values(told, asked),
    }),
    ("these words have no sign before them", |told, asked| match &told.stray {
        Some(words) => values(told, asked).replace(&note(told), &format!("\"{}\"", words.trim_start_matches("! "))),
        None => values(told, asked),
    }),
    ("of what was not played only the first line is said", |told, asked| match told.unplayed.split_once('\n') {
        Some((first, _)) => values(told, asked).replace(&note(told), &format!("\"{first}\"")),
        None => values(told, asked),
    }),
    ("the log's end is that of its last stretch", |told, asked| {
        let seconds = told.stretches.last().map_or(told.seconds, |(_, stretch)| stretch.to);
        let row = format!(",,{seconds},,,{},{}\r\n", clock(asked, seconds), note(told));
        HEADS.to_string() + &rows(told, asked, told.stretches.len()) + &row
    }),
    ("the last row has the log's seconds as a length", |told, asked| {
        let row = format!(",0,{0},{0},,{1},{2}\r\n", told.seconds, clock(asked, told.seconds), note(told));
        HEADS.to_string() + &rows(told, asked, told.stretches.len()) + &row
    }),
    ("the last row's clock is where times begin", |told, asked| {
        let row = format!(",,{},,{},,{}\r\n", told.seconds, clock(asked, told.seconds), note(told));
        HEADS.to_string() + &rows(told, asked, told.stretches.len()) + &row
    }),
    ("the last row ends with LF alone", |told, asked| values(told, asked).trim_end().to_string() + "\n"),
    ("after a failed read the stretches that still burn are told", |told, asked| {
        values(told, asked).replace(&last(told, asked), ",,,,,,! read failed\r\n")
    }),
    ("a stretch over midnight has two rows", |told, asked| {
        let of = |(place, stretch): &(usize, Stretch)| {
            let middle = stretch.to / 86_400 * 86_400;
            match stretch.from < middle && middle < stretch.to {
                true => [(stretch.from, middle), (middle, stretch.to)]
                    .map(|(from, to)| row(*place, Stretch { from, to }, asked))
                    .concat(),
                false => row(*place, *stretch, asked),
            }
        };
        HEADS.to_string() + &told.stretches.iter().map(of).collect::<String>() + &last(told, asked)
    }),
    ("a second of a stretch too many", |told, asked| {
        let of = |(place, stretch): &(usize, Stretch)| {
            row(*place, Stretch { from: stretch.from, to: stretch.to + 1 }, asked)
        };
        HEADS.to_string() + &told.stretches.iter().map(of).collect::<String>() + &last(told, asked)
    }),
];

/// What a run over tables met.
#[derive(Default)]
pub struct MetValues(Tally);

const KINDS: [&str; 5] = [
    "all played",
    "lines or calls that were not played",
    "a line that does not belong",
    "a read that fails",
    "a form that does not load",
];

impl MetValues {
    fn count(&mut self, case: &Case, asked: Asked) {
        self.0.logs += 1;
        self.0.lines += lines(&case.fed.log).count();
        let table = Table::of(case);
        self.0.meet(match &table {
            Table::None => "a form that does not load",
            Table::Cut(_) => "a read that fails",
            Table::Whole(told) if told.stray.is_some() => "a line that does not belong",
            Table::Whole(told) if !told.unplayed.is_empty() => "lines or calls that were not played",
            Table::Whole(_) => "all played",
        });
        let (Table::Cut(told) | Table::Whole(told)) = &table else { return };
        let right = table.text(asked);
        for (place, (_, wrong)) in MISTAKES.iter().enumerate() {
            self.0.show(place, || wrong(told, asked) != right);
        }
    }

    fn and(self, other: MetValues) -> MetValues {
        MetValues(self.0.and(other.0))
    }

    pub fn missed(&self) -> Vec<&'static str> {
        self.0.missed(MISTAKES.iter().map(|(words, _)| *words))
    }
}

impl fmt::Display for MetValues {
    fn fmt(&self, f: &mut fmt::Formatter) -> fmt::Result {
        let mistakes: Vec<_> = MISTAKES.iter().map(|(words, _)| *words).collect();
        self.0.tell(f, ("tables with", &KINDS), "written alike", &mistakes)
    }
}

/// What is written of a case.
enum Table {
    Whole(Told),
    /// A folder is the last file of the log.
    Cut(Told),
    /// The form does not load.
    None,
}

impl Table {
    /// A log that comes in files alone ends with a folder; but for one in which a line does not belong, where what comes
    /// behind that line may be left unread.
    fn of(case: &Case) -> Table {
        let log = &case.fed.log;
        let Ok(whole) = told(case.form(), log) else { return Table::None };
        if case.files.is_empty() || !case.fed.reads.is_empty() {
            return Table::Whole(whole);
        }
        // the line that had begun is not played
        let ended = log.iter().rposition(|&byte| byte == b'\n').map_or(0, |at| at + 1);
        match told(case.form(), &log[..ended]) {
            Ok(cut) if cut.stray.is_none() => Table::Cut(cut),
            _ => Table::Whole(whole),
        }
    }

    fn text(&self, asked: Asked) -> String {
        match self {
            Table::Whole(told) => values(told, asked),
            Table::Cut(told) => values_cut(told, asked),
            Table::None => String::new(),
        }
    }

    fn printed(&self, started: &Started, case: &Case, number: usize) -> Vec<u8> {
        if let Table::Cut(_) = self { started.printed_cut(case, number) } else { started.printed(case, number) }
    }
}

/// The logs of a seed, so many random ones: what they met, or the first whose table is another one, cut down.
pub fn compare(program: &Program, seed: u64, count: usize, asked: Asked) -> Result<MetValues, Box<Difference>> {
    let started = Started::new(program, Played::Burnt);
    let both = |case: &Case, number| {
        let table = Table::of(case);
        (table.text(asked), String::from_utf8_lossy(&table.printed(&started, case, number)).into_owned())
    };
    let met = on_all(FIXED + count, MetValues::default, |number, met| {
        let case = nth(seed, number);
        let (right, given) = both(&case, number);
        if right != given {
            return Err((number, case));
        }
        met.count(&case, asked);
        Ok(())
    });
    met.map(|all| all.into_iter().fold(MetValues::default(), MetValues::and)).map_err(|(number, case)| {
        let differs = |case: &Case| {
            let (right, given) = both(case, number);
            right != given
        };
        let case = shrink::smallest(case, TRIES, differs);
        let (right, given) = both(&case, number);
        Box::new(Difference { number, case, words: format!("its table is\n{given}and has to be\n{right}") })
    })
}

#[cfg(test)]
mod tests {
    use super::*;
    use crate::pages::moment;

    fn of(log: &str, asked: Asked) -> String {
        values(&told(None, log.as_bytes()).unwrap(), asked)
    }

    /// By hand, from the rules.
    #[test]
    fn last_rows() {
        let clock = Asked { began: moment("2026-12-31T23:00"), ..Asked::default() };
        assert_eq!(of("", Asked::default()), HEADS.to_string() + ",,0,,,,end of the log\r\n");
        assert_eq!(of("T 3600\n", clock), HEADS.to_string() + ",,3600,,,2027-01-01 00:00:00,end of the log\r\n");
        let burnt = "1,0,60,60,,,\r\n,,70,,,,end of the log\r\n";
        assert_eq!(of("O 00000000\nR %1POWR 1\nT 60\nR %1POWR 0\nT 10\n", Asked::default()), HEADS.to_string() + burnt);
        let bad = ",,5,,,,\"lines not understood: 1; line 2 is empty\"\r\n";
        assert_eq!(of("T 5\n\n", Asked::default()), HEADS.to_string() + bad);
        let stray = ",,0,,,,\"! line 1: no line end\"\r\n";
        assert_eq!(of("LOG 1", Asked::default()), HEADS.to_string() + stray);
        let mut quoted = told(None, b"").unwrap();
        quoted.stray = Some("! line 1: \"a\"".to_string());
        assert_eq!(values(&quoted, clock), HEADS.to_string() + ",,0,,,2026-12-31 23:00:00,\"! line 1: \"\"a\"\"\"\r\n");
    }

    #[test]
    fn cut() {
        let still = told(None, b"O 00000000\nR %1POWR 1\nT 60\nR %1POWR 0\nT 90\nR %1POWR 1\nT 5\n").unwrap();
        let row = "1,0,60,60,,,\r\n,,,,,,! read failed\r\n";
        assert_eq!(values_cut(&still, Asked::default()), HEADS.to_string() + row);
    }

    /// Every kind of table, and each mistake shows.
    #[test]
    fn tables_show_the_mistakes() {
        let asked = Asked { began: moment("2028-02-26T21:05:07"), long: Some(2), life: None };
        let mut met = MetValues::default();
        (0..FIXED + 300).for_each(|number| met.count(&nth(6, number), asked));
        for kind in KINDS {
            assert!(met.0.times(kind) >= 5, "{kind}: {}", met.0.times(kind));
        }
        assert_eq!(met.missed(), [""; 0]);
    }
}
