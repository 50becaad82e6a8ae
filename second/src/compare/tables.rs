//! Tables of lamp seconds (RULES, Service).

use super::random::Random;
use super::shrink::{lower_at, shorter};
use crate::face::Act;

/// Two months: most lamps burn on or rest, a few go backwards. At times a table or the result list has another length.
pub fn compare_lamps(random: &mut Random) -> Act {
    let places = match random.below(24) {
        0 => 65,
        1 => 256 + random.below(65),
        _ => random.length_to(64),
    };
    let earlier: Vec<u32> = (0..places).map(|_| seconds(random)).collect();
    let mut later: Vec<u32> = earlier.iter().map(|&seconds| burnt_on(random, seconds)).collect();
    for _ in 0..random.below(3).min(places) {
        let place = random.below(places);
        later[place] = random.pick(&[0, earlier[place] / 2, earlier[place].saturating_sub(1)]);
    }
    match random.below(16) {
        0 => drop(later.pop()),
        1 => later.push(seconds(random)),
        _ => (),
    }
    let room = match random.below(16) {
        0 => places.saturating_sub(1),
        1 => random.below(places + 1),
        2..=5 => places + random.below(8),
        _ => places,
    };
    let lent = (0..room).map(|_| random.number() as i64).collect();
    Act::CompareLamps { earlier, later, lent }
}

fn seconds(random: &mut Random) -> u32 {
    let any = random.word();
    random.pick(&[any, any, any >> 16, 0, 1, 1 << 31, u32::MAX - 1, u32::MAX])
}

fn burnt_on(random: &mut Random, seconds: u32) -> u32 {
    let any = random.word();
    seconds.saturating_add(random.pick(&[0, 0, 1, any, any >> 16, u32::MAX]))
}

/// Fewer places in both tables, one list shorter, lower seconds, a result list of zeros.
pub fn simpler(earlier: &[u32], later: &[u32], lent: &[i64]) -> Vec<Act> {
    let tables = |earlier: &[u32], later: &[u32], lent: &[i64]| Act::CompareLamps {
        earlier: earlier.to_vec(),
        later: later.to_vec(),
        lent: lent.to_vec(),
    };
    let mut all: Vec<Act> = Vec::new();
    if earlier.len() == later.len() {
        all.extend(shorter(earlier).zip(shorter(later)).map(|(earlier, later)| tables(&earlier, &later, lent)));
    }
    all.extend(shorter(earlier).map(|earlier| tables(&earlier, later, lent)));
    all.extend(shorter(later).map(|later| tables(earlier, &later, lent)));
    all.extend(shorter(lent).map(|lent| tables(earlier, later, &lent)));
    if lent.iter().any(|&place| place != 0) {
        all.push(tables(earlier, later, &vec![0; lent.len()]));
    }
    all.extend(lower_at(earlier).map(|earlier| tables(&earlier, later, lent)));
    all.extend(lower_at(later).map(|later| tables(earlier, &later, lent)));
    all
}
