//! Logs for pages: those of `burnts`, but of so few days, or so few that have a burn, that their pages stay short, with
//! seconds that often end at midnight or beside it.

use super::drawn::DAY;
use crate::burnts::{Case, FormAndLog, form_of, made};
use crate::compare::forms;
use crate::compare::random::Random;
use crate::compare::recorded::making::any_seconds;
use crate::face::Lent;
use crate::logs::recorded;
use crate::replay::history::is_history;
use crate::replay::{Event, event, lines, text_of};

/// Everything of a kind, each in large reads and in small ones.
const EVERY: [fn() -> FormAndLog; 17] = [
    || (Some(of_lamps(0)), edges(|k| DAY * (k + 1))),
    || (Some(of_lamps(3)), edges(|k| DAY * (k + 1))),
    || (Some(of_lamps(3)), edges(|k| MIDNIGHT + DAY * k)),
    || (Some(of_lamps(2)), edges(|k| 7 * DAY * (k + 1))),
    || (Some(of_lamps(2)), edges(|k| MIDNIGHT + DAY + 7 * DAY * k)),
    || (Some(of_lamps(2)), edges(|k| 30 * DAY * (k + 1))),
    || (Some(of_lamps(1)), edges(month_end)),
    every_second,
    years,
    || evenings(60 * DAY),
    || evenings(60 * DAY + 1),
    || evenings(400 * DAY),
    || evenings(400 * DAY + 1),
    || evenings(MIDNIGHT + 59 * DAY),
    || evenings(MIDNIGHT + 59 * DAY + 1),
    || evenings(MIDNIGHT + 399 * DAY),
    || evenings(MIDNIGHT + 399 * DAY + 1),
];

/// A clock of which pages are read back begins on 2028-02-26, a Saturday, at 21:05:07: so many seconds before midnight.
const MIDNIGHT: u128 = 10_493;

/// They come first.
pub const FIXED: usize = 2 * EVERY.len();

/// The case of a seed with that number.
pub fn nth(seed: u64, number: usize) -> Case {
    let mut random = Random::new(Random::new(seed.wrapping_add(number as u64)).number());
    let (form, log) = match EVERY.get(number / 2) {
        Some(every) => every(),
        None => {
            let (form, log) = made(&mut random, number);
            match is_history(&log) {
                true => history(&mut random, number),
                false => (form, paced(&mut random, &log)),
            }
        }
    };
    Case::new(&mut random, (form, log), number)
}

/// A history of a few days, in whose lines the seconds stand that were passed.
fn history(random: &mut Random, number: usize) -> FormAndLog {
    let form = form_of(random, number);
    let end = DAY * random.pick(&DAYS);
    let mut now = 0;
    let log = recorded::log(random, form.as_deref(), &mut |random, device| {
        let any = any_seconds(random, device);
        let seconds = next_seconds(random, now, end, any);
        let seconds = if now + seconds > end { seconds % 600 } else { seconds };
        let seconds = if now + seconds > end { 0 } else { seconds };
        now += seconds;
        seconds as u32
    });
    (form, log)
}

/// A log is no longer.
const DAYS: [u128; 10] = [1, 2, 3, 8, 40, 61, 100, 400, 402, 900];

/// To midnight, or beside it, more often than other seconds; of a long log to a later one.
fn next_seconds(random: &mut Random, now: u128, end: u128, seconds: u32) -> u128 {
    let to_midnight = DAY - now % DAY;
    let days = (end / DAY / 6).max(3) as usize;
    match random.below(8) {
        0 => to_midnight,
        1 => to_midnight - 1,
        2 => to_midnight + 1,
        3 => to_midnight + DAY * random.below(days) as u128,
        4 => random.below(days * DAY as usize) as u128,
        _ => u128::from(seconds),
    }
}

/// The same lines, with other seconds.
fn paced(random: &mut Random, log: &[u8]) -> Vec<u8> {
    let end = DAY * random.pick(&DAYS);
    let mut now = 0;
    let mut paced = Vec::new();
    for line in lines(log) {
        let Some(Event::Pass(seconds)) = event(text_of(line)) else {
            paced.extend(line);
            continue;
        };
        let seconds = next_seconds(random, now, end, seconds);
        let seconds = if now + seconds > end { seconds % 600 } else { seconds };
        if now + seconds <= end {
            now += seconds;
            paced.extend(format!("T {seconds}").bytes());
            paced.extend(&line[text_of(line).len()..]);
        }
    }
    paced
}

/// Stretches that begin and end at the end of a day, a week or a month, a second before it and a second after it, the
/// same one, the next and the one after that; now and then one second is all that lies in one.
fn edges(end: fn(u128) -> u128) -> Vec<u8> {
    let mut log = b"O 00000000\n".to_vec();
    let (mut now, mut at) = (0, 0);
    for first in 0..3 {
        for last in 0..3 {
            for later in 0..3 {
                let (from, to) = (end(at) + first - 1, end(at + later) + last - 1);
                at += later + 1;
                if from < to {
                    log.extend(format!("T {}\nR %1POWR 1\nT {}\nR %1POWR 0\nT 1\n", from - now, to - from).bytes());
                    now = to + 1;
                }
            }
        }
    }
    log
}

/// Of the clock above, from February 2028 on: that month has 29 days, of which three are left.
fn month_end(month: u128) -> u128 {
    const DAYS: [u128; 12] = [31, 28, 31, 30, 31, 30, 31, 31, 30, 31, 30, 31];
    let later = (2..month + 2).map(|month| DAYS[month as usize % 12] + u128::from(month == 49));
    MIDNIGHT + DAY * (3 + later.sum::<u128>())
}

/// So many seconds, with a burn of seven hours each third evening.
fn evenings(seconds: u128) -> FormAndLog {
    let mut log = "O 00000000\n".to_string();
    let (mut now, hour) = (0, 3600);
    while now + 3 * DAY <= seconds {
        log += &format!("T {}\nR %1POWR 1\nT {}\nR %1POWR 0\nT {}\n", 20 * hour, 7 * hour, 3 * DAY - 27 * hour);
        now += 3 * DAY;
    }
    log += &format!("T {}\n", seconds - now);
    (Some(of_lamps(2)), log.into_bytes())
}

/// Stretches of every length to three units, and beginning at each of as many seconds, so that each hundredth that bars
/// begin and end with is there.
fn every_second() -> FormAndLog {
    let stretch = |length: usize| format!("R %1POWR 1\nT {length}\nR %1POWR 0\nT 1\n");
    let log = (1..=270).map(stretch).collect::<String>();
    (Some(of_lamps(2)), ["O 00000000\n", &log].concat().into_bytes())
}

/// More seconds than 32 bits count, on a device with one lamp; at the end a stretch past them.
fn years() -> FormAndLog {
    (None, b"O 00000000\nT 4294967290\nR %1POWR 1\nT 20\nT 3600\nR %1POWR 0\nT 60\n".to_vec())
}

/// W and C are one second each.
fn of_lamps(count: u32) -> Vec<u8> {
    forms::of(&Lent { lamps: (0..count).collect(), ..forms::least() })
}

#[cfg(test)]
mod tests {
    use super::*;
    use crate::pages::moment;

    /// The fixed logs end months where the clock does.
    #[test]
    fn month_ends() {
        let began = moment("2028-02-26T21:05:07").unwrap();
        assert_eq!(u128::from(began.second) + MIDNIGHT, DAY);
        let ends = [(0, "2028-03-01"), (1, "2028-04-01"), (12, "2029-03-01"), (47, "2032-02-01"), (48, "2032-03-01")];
        for (month, day) in ends {
            assert_eq!(began.instant(month_end(month)), format!("{day} 00:00:00"));
        }
    }
}
