//! The clock of a page (RULES, Floor log): "with `--began` the days are those of the calendar". Dates by the count of days
//! since 1970-01-01, as H. Hinnant's "chrono-Compatible Low-Level Date Algorithms" has it.

/// When a log began.
#[derive(Clone, Copy, PartialEq, Eq, Debug)]
pub struct Moment {
    /// Of the day, since 1970-01-01.
    pub days: i64,
    /// Of the day.
    pub second: u32,
}

const NAMES: [&str; 7] = ["Mon", "Tue", "Wed", "Thu", "Fri", "Sat", "Sun"];

/// "as `2026-11-23T06:00`, or with seconds".
pub fn moment(text: &str) -> Option<Moment> {
    let (date, time) = text.split_once('T')?;
    let numbers = |text: &str, sign| text.split(sign).map(|part| part.parse().ok()).collect::<Option<Vec<u32>>>();
    let [year, month, day] = numbers(date, '-')?[..] else { return None };
    let (hour, minute, second) = match numbers(time, ':')?[..] {
        [hour, minute] => (hour, minute, 0),
        [hour, minute, second] => (hour, minute, second),
        _ => return None,
    };
    let days = days_of(year.into(), month, day);
    (date_of(days) == (year.into(), month, day) && hour < 24 && minute < 60 && second < 60)
        .then_some(Moment { days, second: hour * 3600 + minute * 60 + second })
}

fn days_of(year: i64, month: u32, day: u32) -> i64 {
    let year = if month <= 2 { year - 1 } else { year };
    let era = year.div_euclid(400);
    let of_era = year.rem_euclid(400);
    let from_march = i64::from((month + 9) % 12);
    let of_year = (153 * from_march + 2) / 5 + i64::from(day) - 1;
    era * 146_097 + of_era * 365 + of_era / 4 - of_era / 100 + of_year - 719_468
}

fn date_of(days: i64) -> (i64, u32, u32) {
    let days = days + 719_468;
    let era = days.div_euclid(146_097);
    let of_era = days.rem_euclid(146_097);
    let year = (of_era - of_era / 1460 + of_era / 36_524 - of_era / 146_096) / 365;
    let of_year = of_era - (365 * year + year / 4 - year / 100);
    let from_march = (5 * of_year + 2) / 153;
    let month = if from_march < 10 { from_march + 3 } else { from_march - 9 };
    let day = of_year - (153 * from_march + 2) / 5 + 1;
    (era * 400 + year + i64::from(month <= 2), month as u32, day as u32)
}

impl Moment {
    /// "its weekday and its date", of a day counted from 1.
    pub fn day(&self, day: usize) -> String {
        let (year, month, of_month) = date_of(self.days_to(day));
        format!("{} {year:04}-{month:02}-{of_month:02}", NAMES[self.weekday(day)])
    }

    /// Of a day counted from 1: so many days of its week are before it, which begins on a Monday.
    pub fn weekday(&self, day: usize) -> usize {
        (self.days_to(day) + 3).rem_euclid(7) as usize
    }

    /// So many days of its month are before it, and so many days has that month.
    pub fn of_month(&self, day: usize) -> (usize, usize) {
        let (year, month, of_month) = date_of(self.days_to(day));
        let next = if month == 12 { days_of(year + 1, 1, 1) } else { days_of(year, month + 1, 1) };
        (of_month as usize - 1, (next - days_of(year, month, 1)) as usize)
    }

    fn days_to(&self, day: usize) -> i64 {
        self.days + day as i64 - 1
    }

    /// "`2026-11-23 06:00:20`", of a second of the log.
    pub fn instant(&self, second: u128) -> String {
        let second = u128::from(self.second) + second;
        let (year, month, day) = date_of(self.days + (second / 86_400) as i64);
        let [hours, minutes, seconds] = [second / 3600 % 24, second / 60 % 60, second % 60];
        format!("{year:04}-{month:02}-{day:02} {hours:02}:{minutes:02}:{seconds:02}")
    }

    pub fn time(&self) -> String {
        let Moment { second, .. } = self;
        format!("{}:{:02}:{:02}", second / 3600, second / 60 % 60, second % 60)
    }
}

#[cfg(test)]
mod tests {
    use super::*;

    #[test]
    fn days() {
        let began = moment("2026-11-23T06:00").unwrap();
        assert_eq!((began.day(1).as_str(), began.day(8).as_str()), ("Mon 2026-11-23", "Mon 2026-11-30"));
        assert_eq!((began.second, began.time().as_str()), (21_600, "6:00:00"));
        let leap = moment("2028-02-28T23:59:59").unwrap();
        assert_eq!((leap.day(2).as_str(), leap.day(3).as_str()), ("Tue 2028-02-29", "Wed 2028-03-01"));
        assert_eq!([1, 7, 8].map(|day| began.weekday(day)), [0, 6, 0]);
        assert_eq!([1, 8, 9].map(|day| began.of_month(day)), [(22, 30), (29, 30), (0, 31)]);
        assert_eq!([1, 2, 3].map(|day| leap.of_month(day)), [(27, 29), (28, 29), (0, 31)]);
        for text in ["2027-02-29T00:00", "2026-11-23T24:00", "2026-11-23", "2026-13-01T00:00", "2026-11-23T06"] {
            assert_eq!(moment(text), None, "{text}");
        }
    }
}
