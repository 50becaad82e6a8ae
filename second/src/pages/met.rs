//! What a run over pages met, and which mistakes they were given.

use super::drawn::{Bar, Row, Scale};
use super::mistakes::{CLOCKED, MISTAKES};
use super::{Drawn, Expected};
use crate::burnt::Sum;
use crate::burnts::Case;
use crate::replay::history::is_history;
use crate::replay::lines;
use crate::tally::Tally;
use std::fmt;

pub const KINDS: [&str; 30] = [
    "a history",
    "a line that does not belong",
    "lines or calls that were not played",
    "a form that does not load",
    "no lamp",
    "eight lamps",
    "a lamp at its limit",
    "one day",
    "ten days and more",
    "60 days",
    "61 days",
    "400 days",
    "401 days",
    "rows of a day",
    "rows of a week",
    "rows of a month",
    "a first row that is not whole",
    "a month of 28 or 29 days",
    "days with a long burn",
    "a long burn over the end of a longer row",
    "a table of one stretch",
    "seconds past 32 bits",
    "a day without a bar",
    "days without a bar, in one line",
    "a page without a picture",
    "a bar from its row's first second on",
    "a bar until its row's last second",
    "a bar of a whole row",
    "a bar of one second",
    "many bars on one band",
];

#[derive(Default)]
pub struct Met {
    tally: Tally,
    rows: usize,
    bars: usize,
    /// Mistakes that pages were given; each was seen.
    given: usize,
    /// A page was of a log that began at a known time.
    has_clock: bool,
}

impl Met {
    /// One more page that shows what it has to show, and the mistakes that it was given, by their places in the list.
    pub fn count(&mut self, case: &Case, expected: &Expected, given: &[usize]) {
        self.tally.logs += 1;
        self.tally.lines += lines(&case.fed.log).count();
        self.given += given.len();
        given.iter().for_each(|&place| self.tally.show(place, || true));
        match expected {
            Ok(drawn) => {
                self.count_page(drawn);
                if is_history(&case.fed.log) {
                    self.tally.meet("a history");
                }
            }
            Err(_) => self.tally.meet("a form that does not load"),
        }
    }

    fn count_page(&mut self, drawn: &Drawn) {
        let bands = || drawn.spans.iter().flat_map(|span| &span.lamps);
        self.has_clock |= drawn.asked.began.is_some();
        self.rows += drawn.rows().len();
        self.bars += bands().map(Vec::len).sum::<usize>();
        let any_bar = |is: &dyn Fn(&Bar) -> bool| bands().flatten().any(is);
        let band = |bar: &Bar| drawn.spans[bar.span].band();
        let at_limit = |sum: &Sum| u128::from(sum.start) + sum.burnt > sum.now.into();
        let pictures = || drawn.spans.iter().filter(|span| span.lamps.iter().any(|bars| !bars.is_empty()));
        let is_short = |days: u64| matches!(days / 86_400, 28 | 29);
        let is_longer = drawn.scale != Scale::Day;
        let rows = drawn.rows();
        let is_over =
            |pair: &[Row]| matches!(pair, [Row::Long(_), Row::Days(first, _), Row::Long(next)] if first == next);
        for (kind, is_met) in [
            ("a line that does not belong", drawn.stray.is_some()),
            ("lines or calls that were not played", !drawn.unplayed.is_empty()),
            ("no lamp", drawn.sums.is_empty()),
            ("eight lamps", drawn.sums.len() == 8),
            ("a lamp at its limit", drawn.sums.iter().any(at_limit)),
            ("one day", drawn.days == 1),
            ("ten days and more", drawn.days >= 10),
            ("60 days", drawn.days == 60),
            ("61 days", drawn.days == 61),
            ("400 days", drawn.days == 400),
            ("401 days", drawn.days == 401),
            ("rows of a day", drawn.scale == Scale::Day),
            ("rows of a week", drawn.scale == Scale::Week),
            ("rows of a month", drawn.scale == Scale::Month),
            ("a first row that is not whole", pictures().any(|span| span.lead > 0)),
            ("a month of 28 or 29 days", pictures().any(|span| is_short(span.band().1))),
            ("days with a long burn", rows.iter().any(|row| matches!(row, Row::Long(_)))),
            ("a long burn over the end of a longer row", is_longer && rows.windows(3).any(is_over)),
            ("a table of one stretch", drawn.told.len() == 1),
            ("seconds past 32 bits", any_bar(&|bar| bar.stretch.to > u32::MAX.into())),
            ("a day without a bar", rows.iter().any(|row| matches!(row, Row::Idle(..)))),
            ("days without a bar, in one line", rows.iter().any(|row| matches!(row, Row::Idle(a, b) if a < b))),
            ("a page without a picture", pictures().count() == 0),
            ("a bar from its row's first second on", any_bar(&|bar| bar.from == band(bar).0)),
            ("a bar until its row's last second", any_bar(&|bar| bar.to == band(bar).1)),
            ("a bar of a whole row", any_bar(&|bar| (bar.from, bar.to) == band(bar))),
            ("a bar of one second", any_bar(&|bar| bar.seconds() == 1)),
            ("many bars on one band", bands().any(|bars| bars.len() >= 10)),
        ] {
            if is_met {
                self.tally.meet(kind);
            }
        }
    }

    pub fn and(self, other: Met) -> Met {
        Met {
            tally: self.tally.and(other.tally),
            rows: self.rows + other.rows,
            bars: self.bars + other.bars,
            given: self.given + other.given,
            has_clock: self.has_clock || other.has_clock,
        }
    }

    pub fn times(&self, kind: &str) -> usize {
        self.tally.times(kind)
    }

    /// The mistakes that no page could be given.
    pub fn missed(&self) -> Vec<&'static str> {
        self.tally.missed(self.mistakes().into_iter())
    }

    /// Those that these pages can be given.
    fn mistakes(&self) -> Vec<&'static str> {
        let count = if self.has_clock { MISTAKES.len() } else { MISTAKES.len() - CLOCKED };
        MISTAKES[..count].iter().map(|(words, _)| *words).collect()
    }
}

impl fmt::Display for Met {
    fn fmt(&self, f: &mut fmt::Formatter) -> fmt::Result {
        self.tally.tell(f, ("pages with", &KINDS), "shown by pages as they were", &self.mistakes())?;
        let Met { rows, bars, given, .. } = self;
        write!(f, "; {rows} rows and {bars} bars, {given} mistakes made in pages, each seen")
    }
}
