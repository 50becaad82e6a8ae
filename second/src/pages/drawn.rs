//! What a page has to show of a log (RULES, Floor log): of the days with a second of the log, "86,400 seconds a day since
//! the log began, and of the first where there is none", rows of one length, or lines of days in which no lamp burnt; in a
//! row "a band for each lamp, with its number; on it a bar for each stretch with a second in that row, cut at the row's
//! ends"; what of a row lamps burnt; each lamp's sums, with what is left of its life; and each stretch.

use super::clock::Moment;
use crate::burnt::{Stretch, Sum, Told};

pub const DAY: u128 = 86_400;

/// "up to 60 days a row is a day; 61 to 400 days a week; beyond that a month".
#[derive(Clone, Copy, PartialEq, Eq, Debug)]
pub enum Scale {
    Day,
    Week,
    Month,
}

impl Scale {
    /// Of a log that has a second in so many days.
    pub fn of(days: usize) -> Scale {
        match days {
            0..=60 => Scale::Day,
            61..=400 => Scale::Week,
            _ => Scale::Month,
        }
    }

    /// "A picture is 86,400, 604,800 or 2,678,400 wide, a unit a second".
    pub fn wide(self) -> u64 {
        match self {
            Scale::Day => 86_400,
            Scale::Week => 604_800,
            Scale::Month => 2_678_400,
        }
    }

    /// Above the pictures: from which second of a row on, and what stands there.
    pub fn heads(self, has_clock: bool) -> Vec<(u64, String)> {
        let [day, week] = [86_400, 604_800];
        let all: Vec<(u64, String)> = match (self, has_clock) {
            (Scale::Day, true) => (0..=8).map(|k| (k * 10_800, format!("{:02}:00", 3 * k))).collect(),
            (Scale::Day, false) => (0..=8).map(|k| (k * 10_800, format!("+{} h", 3 * k))).collect(),
            (Scale::Week, true) => {
                let names = ["Mon", "Tue", "Wed", "Thu", "Fri", "Sat", "Sun"];
                (0..).zip(names).map(|(k, name)| (k * day, name.to_string())).collect()
            }
            (Scale::Week, false) => (0..=7).map(|k| (k * day, format!("+{k} d"))).collect(),
            (Scale::Month, true) => (0..5).map(|k| (k * week, format!("{}", 7 * k + 1))).collect(),
            (Scale::Month, false) => (0..5).map(|k| (k * week, format!("+{} d", 7 * k))).collect(),
        };
        all
    }

    /// "lines at 6, 12 and 18 h; at each midnight; at the days 8, 15, 22 and 29".
    pub fn lines(self) -> Vec<u64> {
        match self {
            Scale::Day => vec![21_600, 43_200, 64_800],
            Scale::Week => (1..7).map(|day| day * 86_400).collect(),
            Scale::Month => (1..5).map(|week| week * 604_800).collect(),
        }
    }
}

#[derive(Debug)]
pub struct Drawn {
    pub scale: Scale,
    /// So many days have a second of the log; one, where it has no second.
    pub days: usize,
    /// The rows that these days are in, also those in which no lamp burnt.
    pub spans: Vec<Span>,
    pub sums: Vec<Sum>,
    /// RULES, History of a board: what is said of a line that does not belong.
    pub stray: Option<String>,
    /// RULES, The programs: what is said of a log that was not all played; nothing of one that was.
    pub unplayed: String,
    /// The stretches, each once, however many lamps burnt.
    pub stretches: Vec<Stretch>,
    /// Each with its lamp's place, in the order in which they are told.
    pub told: Vec<(usize, Stretch)>,
    /// The seconds of the log.
    pub seconds: u128,
    /// The projector's name, maker and model.
    pub names: [Vec<u8>; 3],
    pub asked: Asked,
    pub files: Files,
}

/// The days of a row, counted from 1: the first one and the last one that has a place in it.
#[derive(Debug)]
pub struct Span {
    pub first: usize,
    pub last: usize,
    /// So many days of its week or month are before the log's first day: their place is left empty.
    pub lead: usize,
    /// For each lamp its bars, from left to right.
    pub lamps: Vec<Vec<Bar>>,
}

impl Span {
    /// Where its band begins and ends.
    pub fn band(&self) -> (u64, u64) {
        let [from, days] = [self.lead, self.last + 1 - self.first].map(|days| days as u64 * 86_400);
        (from, from + days)
    }

    /// Of the days, the seconds since the first midnight, the last one not in it.
    fn seconds(&self) -> (u128, u128) {
        ((self.first as u128 - 1) * DAY, self.last as u128 * DAY)
    }
}

/// What a command line says beside `--page`.
#[derive(Clone, Copy, Default, Debug)]
pub struct Asked {
    /// When the log began, where that is known.
    pub began: Option<Moment>,
    /// More than so many hours are long.
    pub long: Option<u128>,
    /// So many hours a lamp lives.
    pub life: Option<u128>,
}

/// The names that a command line gives: the form's, if there is one, and those of the log; none is standard input.
#[derive(Clone, PartialEq, Eq, Default, Debug)]
pub struct Files {
    pub form: Option<String>,
    pub logs: Vec<String>,
}

impl Asked {
    /// What is marked of a stretch: "over midnight", "over 12 h", or both.
    pub fn note(&self, stretch: Stretch) -> String {
        let midnight = self.began.filter(|began| {
            let [first, last] = [stretch.from, stretch.to - 1].map(|second| u128::from(began.second) + second);
            first / DAY < last / DAY
        });
        let long = self.long.filter(|_| self.is_long(stretch));
        let words = [midnight.map(|_| "over midnight".to_string()), long.map(|hours| format!("over {hours} h"))];
        words.into_iter().flatten().collect::<Vec<_>>().join(" and ")
    }

    fn is_long(&self, stretch: Stretch) -> bool {
        self.long.is_some_and(|hours| stretch.to - stretch.from > hours * 3600)
    }

    /// A second of the log: by the clock, or in hours since the log began.
    pub fn instant(&self, second: u128) -> String {
        match &self.began {
            Some(began) => began.instant(second),
            None => format!("{}:{:02}:{:02}", second / 3600, second / 60 % 60, second % 60),
        }
    }

    /// Seconds from the first midnight to the log's first second.
    fn past_midnight(&self) -> u128 {
        self.began.map_or(0, |began| began.second.into())
    }

    /// Of a day, counted from 1: so many days of its row are before it, and so many days has the row.
    fn place(&self, scale: Scale, day: usize) -> (usize, usize) {
        match (scale, &self.began) {
            (Scale::Day, _) => (0, 1),
            (Scale::Week, Some(began)) => (began.weekday(day), 7),
            (Scale::Week, None) => ((day - 1) % 7, 7),
            (Scale::Month, Some(began)) => began.of_month(day),
            (Scale::Month, None) => ((day - 1) % 30, 30),
        }
    }

    /// The rows that so many days are in, without bars.
    fn spans(&self, days: usize, lamps: usize) -> Vec<Span> {
        let scale = Scale::of(days);
        let mut spans: Vec<Span> = Vec::new();
        for first in 1..=days {
            let (before, length) = self.place(scale, first);
            if before == 0 || first == 1 {
                let last = first + length - before - 1;
                spans.push(Span { first, last, lead: before, lamps: vec![Vec::new(); lamps] });
            }
        }
        spans
    }
}

/// Of a lamp's stretch what lies in one row.
#[derive(Clone, Copy, Debug)]
pub struct Bar {
    /// From 1.
    pub lamp: usize,
    /// Its row's place among the spans.
    pub span: usize,
    pub stretch: Stretch,
    /// Where it lies in the picture, the second `to` not in it.
    pub from: u64,
    pub to: u64,
    /// What is marked of the stretch.
    pub asked: Asked,
}

impl Bar {
    pub fn seconds(&self) -> u64 {
        self.to - self.from
    }

    /// "The bar's title tells the whole stretch".
    pub fn title(&self) -> String {
        let title = title(self.lamp, self.stretch.from, self.stretch.to);
        if self.note().is_empty() { title } else { format!("{title}, {}", self.note()) }
    }

    pub fn note(&self) -> String {
        self.asked.note(self.stretch)
    }
}

/// "`lamp 1 from 20 to 80: 60 seconds`".
pub fn title(lamp: usize, from: u128, to: u128) -> String {
    format!("lamp {lamp} from {from} to {to}: {} seconds", to - from)
}

/// A row of the table of the days, which are counted from 1.
#[derive(Clone, Copy, Debug, PartialEq, Eq)]
pub enum Row {
    /// From the one day to the other, with a picture.
    Days(usize, usize),
    /// No lamp burnt from the one day to the other.
    Idle(usize, usize),
    /// "each day in it that has a burn beyond `--long`", where a row is longer than a day.
    Long(usize),
}

impl Drawn {
    /// A day, counted from 1.
    pub fn day(&self, day: usize) -> String {
        match &self.asked.began {
            Some(began) => began.day(day),
            None => format!("day {day}"),
        }
    }

    /// A row's day, or the first and the last of its days.
    pub fn name(&self, row: &Row) -> String {
        match row {
            Row::Long(day) => self.day(*day),
            Row::Days(first, last) | Row::Idle(first, last) if first == last => self.day(*first),
            Row::Days(first, last) | Row::Idle(first, last) => format!("{} to {}", self.day(*first), self.day(*last)),
        }
    }

    /// The row that begins with this day.
    pub fn span(&self, first: usize) -> &Span {
        self.spans.iter().find(|span| span.first == first).expect("a row begins with it")
    }

    /// The seconds from the one to the other since the first midnight in which any lamp burnt.
    fn burnt_between(&self, (from, to): (u128, u128)) -> u128 {
        let within = |second: u128| (self.asked.past_midnight() + second).clamp(from, to);
        self.stretches.iter().map(|stretch| within(stretch.to) - within(stretch.from)).sum()
    }

    /// The seconds of a row in which any lamp burnt.
    pub fn burnt_in(&self, span: &Span) -> u128 {
        self.burnt_between(span.seconds())
    }

    /// Whether a stretch that is long has a second in this day.
    fn has_long(&self, day: usize) -> bool {
        let midnight = self.asked.past_midnight();
        let [from, to] = [day as u128 - 1, day as u128].map(|days| days * DAY);
        self.stretches
            .iter()
            .any(|stretch| self.asked.is_long(*stretch) && midnight + stretch.from < to && from < midnight + stretch.to)
    }

    /// What is said of a day in which a lamp burnt longer than so many hours.
    pub fn long_words(&self) -> String {
        format!("a burn of more than {} h", self.asked.long.expect("no burn is long otherwise"))
    }

    /// "The longest burn", the first of those that are equally long.
    pub fn longest(&self) -> Option<String> {
        let longest = self.stretches.iter().rev().max_by_key(|stretch| stretch.to - stretch.from)?;
        let [from, to] = [longest.from, longest.to].map(|second| self.asked.instant(second));
        Some(format!("The longest burn is from {from} to {to}: {}.", timed(longest.to - longest.from)))
    }

    /// From when to when the log goes, and how long.
    pub fn log_span(&self) -> String {
        let [from, to] = [0, self.seconds].map(|second| self.asked.instant(second));
        format!("The log goes from {from} to {to}: {}.", timed(self.seconds))
    }

    /// What a stripe says, where one can be.
    pub fn legend(&self) -> Option<String> {
        let of = match (self.asked.began, self.asked.long) {
            (None, None) => return None,
            (Some(_), None) => "over midnight".to_string(),
            (None, Some(hours)) => format!("of more than {hours} h"),
            (Some(_), Some(hours)) => format!("over midnight or of more than {hours} h"),
        };
        Some(format!("A bar with a stripe is a burn {of}."))
    }

    /// What is left of a lamp, and until when, where it is said how long it lives.
    pub fn left(&self, sum: &Sum) -> Option<[String; 2]> {
        let left = (self.asked.life? * 3600).saturating_sub(sum.now.into());
        let until = match (left * self.seconds).checked_div(sum.burnt).map(|seconds| seconds / DAY) {
            None => "burns not in this log".to_string(),
            Some(days) if days > 36_525 => "over 100 years".to_string(),
            Some(days) => match &self.asked.began {
                Some(began) => began.day(((u128::from(began.second) + self.seconds) / DAY + days) as usize + 1),
                None => format!("{days} days"),
            },
        };
        Some([timed(left), until])
    }

    /// Terms and texts of what the page is of, but for empty ones, as HTML has them.
    pub fn about(&self) -> Vec<[String; 2]> {
        let ascii =
            |text: &[u8]| text.iter().map(|&b| if b > 126 { "&#65533;".to_string() } else { html(b) }).collect();
        let texts = [escaped(&String::from_utf8_lossy(&self.names[0])), ascii(&self.names[1]), ascii(&self.names[2])];
        let projector = ["projector", "manufacturer", "model"].into_iter().zip(texts);
        let form = [("form", escaped(self.files.form.as_deref().unwrap_or("sample set-up")))];
        let standard = ["standard input".to_string()];
        let logs = if self.files.logs.is_empty() { &standard[..] } else { &self.files.logs };
        let logs = logs.iter().map(|name| ("log", if name == "-" { standard[0].clone() } else { escaped(name) }));
        let all = projector.filter(|(_, text): &(_, String)| !text.is_empty()).chain(form).chain(logs);
        all.map(|(term, text)| [term.to_string(), text]).collect()
    }

    pub fn rows(&self) -> Vec<Row> {
        let mut rows = Vec::new();
        let mut next = 1;
        let idle = |first, last| (first <= last).then_some(Row::Idle(first, last));
        for span in self.spans.iter().filter(|span| span.lamps.iter().any(|bars| !bars.is_empty())) {
            rows.extend(idle(next, span.first - 1));
            rows.push(Row::Days(span.first, span.last));
            if self.scale != Scale::Day {
                rows.extend((span.first..=span.last).filter(|day| self.has_long(*day)).map(Row::Long));
            }
            next = span.last + 1;
        }
        rows.extend(idle(next, self.days));
        rows
    }

    /// Of a stretch in the table of all: its lamp, from when, to when, how long, and its note.
    pub fn listed(&self, (place, stretch): &(usize, Stretch)) -> [String; 5] {
        let [from, to] = [stretch.from, stretch.to].map(|second| self.asked.instant(second));
        [format!("lamp {}", place + 1), from, to, timed(stretch.to - stretch.from), self.asked.note(*stretch)]
    }
}

/// A character of ASCII in HTML's text.
fn html(b: u8) -> String {
    match b {
        b'<' => "&lt;".to_string(),
        b'>' => "&gt;".to_string(),
        b'&' => "&amp;".to_string(),
        _ => char::from(b).to_string(),
    }
}

fn escaped(text: &str) -> String {
    text.chars().map(|c| if c.is_ascii() { html(c as u8) } else { c.to_string() }).collect()
}

/// "hours and minutes, rounded down".
pub fn short(seconds: u128) -> String {
    format!("{} h {} min", seconds / 3600, seconds / 60 % 60)
}

/// "hours and minutes, rounded down, and all its seconds".
pub fn timed(seconds: u128) -> String {
    format!("{} h {} min ({seconds} s)", seconds / 3600, seconds / 60 % 60)
}

pub fn drawn(told: Told, asked: Asked, files: Files) -> Drawn {
    let midnight = asked.past_midnight();
    let days = (midnight + told.seconds).div_ceil(DAY).max(1) as usize;
    let mut spans = asked.spans(days, told.lamps.len());
    let Told { lamps: sums, stray, unplayed, names, seconds, stretches: told, .. } = told;
    let mut stretches = Vec::new();
    for &(place, stretch) in &told {
        if stretches.last() != Some(&stretch) {
            stretches.push(stretch);
        }
        let [first, last] = [stretch.from, stretch.to].map(|second| midnight + second);
        let begun = spans.partition_point(|span| span.seconds().1 <= first);
        for (at, span) in spans.iter_mut().enumerate().skip(begun) {
            let (from, to) = span.seconds();
            if last <= from {
                break;
            }
            let seen = |second: u128| span.band().0 + (second.clamp(from, to) - from) as u64;
            let bar = Bar { lamp: place + 1, span: at, stretch, from: seen(first), to: seen(last), asked };
            span.lamps[place].push(bar);
        }
    }
    Drawn { scale: Scale::of(days), days, spans, sums, stray, unplayed, stretches, told, seconds, names, asked, files }
}

#[cfg(test)]
mod tests {
    use super::*;
    use crate::burnt::told;

    /// Of the sample set-up, on from this second on, and for so long; then so many seconds pass.
    fn page(from: u32, seconds: u32, then: u32, asked: Asked) -> Drawn {
        let log = format!("T {from}\nO 00000000\nR %1POWR 1\nT {seconds}\nR %1POWR 0\nT {then}\n");
        drawn(told(None, log.as_bytes()).unwrap(), asked, Files::default())
    }

    fn plain(from: u32, seconds: u32) -> Drawn {
        page(from, seconds, 0, Asked::default())
    }

    fn bars(drawn: &Drawn) -> Vec<Vec<(u64, u64)>> {
        drawn.spans.iter().map(|span| span.lamps[0].iter().map(|bar| (bar.from, bar.to)).collect()).collect()
    }

    fn began(text: &str) -> Asked {
        Asked { began: super::super::moment(text), ..Asked::default() }
    }

    fn names(drawn: &Drawn) -> Vec<String> {
        drawn.rows().iter().map(|row| drawn.name(row)).collect()
    }

    const D: u32 = 86_400;

    #[test]
    fn cut_at_midnight() {
        let days = |from, seconds| bars(&plain(from, seconds));
        assert_eq!(days(0, 0), [[]]);
        assert_eq!(days(0, 86_400), [[(0, 86_400)]]);
        assert_eq!(days(86_399, 1), [[(86_399, 86_400)]]);
        assert_eq!(days(86_400, 1), [vec![], vec![(0, 1)]]);
        assert_eq!(days(86_400, 0), [[]]);
        assert_eq!(days(80_000, 6400 + 86_400 + 8), [[(80_000, 86_400)], [(0, 86_400)], [(0, 8)]]);
    }

    #[test]
    fn idle_days() {
        assert_eq!(plain(0, 0).rows(), [Row::Idle(1, 1)]);
        assert_eq!(plain(86_400, 1).rows(), [Row::Idle(1, 1), Row::Days(2, 2)]);
        assert_eq!(plain(4 * 86_400, 86_401).rows(), [Row::Idle(1, 4), Row::Days(5, 5), Row::Days(6, 6)]);
        assert_eq!(plain(0, 0).name(&Row::Idle(2, 4)), "day 2 to day 4");
    }

    /// 60 days and 61, 400 and 401; the clock's first midnight counts.
    #[test]
    fn scales() {
        let scale = |seconds, asked| page(0, 30, seconds - 30, asked).scale;
        assert_eq!([60 * D, 60 * D + 1].map(|s| scale(s, Asked::default())), [Scale::Day, Scale::Week]);
        assert_eq!([400 * D, 400 * D + 1].map(|s| scale(s, Asked::default())), [Scale::Week, Scale::Month]);
        let late = began("2026-11-23T23:59:50");
        assert_eq!([59 * D + 10, 59 * D + 11].map(|s| scale(s, late)), [Scale::Day, Scale::Week]);
        assert_eq!([399 * D + 10, 399 * D + 11].map(|s| scale(s, late)), [Scale::Week, Scale::Month]);
    }

    /// A Wednesday at six, and the Sunday's end.
    #[test]
    fn weeks() {
        let drawn = page(5 * D - 21_601, 31, 80 * D, began("2026-11-25T06:00"));
        assert_eq!(bars(&drawn)[..2], [[(604_799, 604_800)], [(0, 30)]]);
        assert_eq!([0, 1].map(|at| drawn.spans[at].band()), [(172_800, 604_800), (0, 604_800)]);
        let rows = ["Wed 2026-11-25 to Sun 2026-11-29", "Mon 2026-11-30 to Sun 2026-12-06"];
        assert_eq!(names(&drawn), [rows[0], rows[1], "Mon 2026-12-07 to Thu 2027-02-18"]);
        let drawn = page(7 * D - 1, 31, 80 * D, Asked::default());
        assert_eq!(names(&drawn), ["day 1 to day 7", "day 8 to day 14", "day 15 to day 88"]);
        assert_eq!(bars(&drawn)[..2], [[(604_799, 604_800)], [(0, 30)]]);
    }

    /// The last day of a February, and the first of a March.
    #[test]
    fn months() {
        let drawn = page(3 * D - 1, D + 2, 500 * D, began("2028-02-27T00:00"));
        assert_eq!(bars(&drawn)[..2], [[(29 * 86_400 - 1, 29 * 86_400)], [(0, 86_401)]]);
        assert_eq!([0, 1].map(|at| drawn.spans[at].band()), [(26 * 86_400, 29 * 86_400), (0, 31 * 86_400)]);
        let rows = ["Sun 2028-02-27 to Tue 2028-02-29", "Wed 2028-03-01 to Fri 2028-03-31"];
        assert_eq!(names(&drawn), [rows[0], rows[1], "Sat 2028-04-01 to Sun 2029-07-15"]);
        let drawn = page(30 * D - 1, 31, 500 * D, Asked::default());
        assert_eq!(names(&drawn), ["day 1 to day 30", "day 31 to day 60", "day 61 to day 531"]);
        assert_eq!(bars(&drawn)[..2], [[(30 * 86_400 - 1, 30 * 86_400)], [(0, 30)]]);
    }

    /// Of a row of many days each day with a long burn; of a row of one day none.
    #[test]
    fn long_days() {
        let asked = Asked { long: Some(2), ..Asked::default() };
        let of = |seconds| page(6 * D + 80_000, 7201, seconds, asked).rows();
        assert_eq!(of(0), [Row::Idle(1, 6), Row::Days(7, 7), Row::Days(8, 8)]);
        let long = [Row::Days(1, 7), Row::Long(7), Row::Days(8, 14), Row::Long(8), Row::Idle(15, 68)];
        assert_eq!(of(60 * D), long);
        let days = [Row::Days(1, 7), Row::Days(8, 14), Row::Idle(15, 68)];
        assert_eq!(page(6 * D + 80_000, 7200, 60 * D, asked).rows(), days);
        assert_eq!(page(6 * D + 80_000, 7201, 60 * D, Asked::default()).rows(), days);
    }

    #[test]
    fn titles() {
        let asked = Asked::default();
        let bar = Bar { lamp: 1, span: 0, stretch: Stretch { from: 20, to: 80 }, from: 20, to: 80, asked };
        assert_eq!(bar.title(), "lamp 1 from 20 to 80: 60 seconds");
        assert_eq!(timed(3_719), "1 h 1 min (3719 s)");
    }

    #[test]
    fn notes() {
        let asked = Asked { began: super::super::moment("2026-11-23T06:00"), long: Some(2), life: None };
        let note = |from, to| asked.note(Stretch { from, to });
        assert_eq!((note(0, 7200).as_str(), note(0, 7201).as_str()), ("", "over 2 h"));
        assert_eq!((note(64_799, 64_800).as_str(), note(64_799, 64_801).as_str()), ("", "over midnight"));
        assert_eq!(note(64_799, 72_000), "over midnight and over 2 h");
    }

    #[test]
    fn about() {
        let files = |form: &str, logs: &[&str]| Files {
            form: Some(form.to_string()),
            logs: logs.iter().map(|log| log.to_string()).collect(),
        };
        let about = |files| drawn(told(None, b"").unwrap(), Asked::default(), files).about();
        let of = |term: &str, text: &str| [term.to_string(), text.to_string()];
        assert_eq!(about(Files::default()), [of("form", "sample set-up"), of("log", "standard input")]);
        let named = [of("form", "a&amp;b"), of("log", "&lt;"), of("log", "standard input")];
        assert_eq!(about(files("a&b", &["<", "-"])), named);
    }

    #[test]
    fn spans_said() {
        let drawn = page(0, 0, 604_800, began("2026-11-23T00:00"));
        let said = "The log goes from 2026-11-23 00:00:00 to 2026-11-30 00:00:00: 168 h 0 min (604800 s).";
        assert_eq!(drawn.log_span(), said);
        assert_eq!(plain(0, 0).log_span(), "The log goes from 0:00:00 to 0:00:00: 0 h 0 min (0 s).");
    }
}
