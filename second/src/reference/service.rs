//! RULES, Service: "Two tables, one list of differences."

use super::calls::OUT_OF_RANGE;
use super::rules::{Mistake, made};
use crate::face;

/// "two lent lists of lamp seconds .. up to 64 places".
const MOST_PLACES: usize = 64;

/// "Lists of unequal length, a length over 64, or too small a result list are 3, with nothing written; places past the
/// lists' length stay unchanged."
pub fn compare_lamps(earlier: &[u32], later: &[u32], out: &mut [i64]) -> face::Compared {
    if later.len() != earlier.len() || earlier.len() > MOST_PLACES || out.len() < earlier.len() {
        return face::Compared { number: OUT_OF_RANGE, backwards: false, place: 0 };
    }
    let mut differences: Vec<i64> = earlier.iter().zip(later).map(|(&e, &l)| difference(e, l)).collect();
    if made(Mistake::LastPlaceSkipped) {
        differences.pop();
    }
    out[..differences.len()].copy_from_slice(&differences);
    let first = differences.iter().position(|&difference| went_backwards(difference));
    face::Compared { number: 0, backwards: first.is_some(), place: first.unwrap_or(0) }
}

/// "the later minus the earlier as a signed 64-bit number".
fn difference(earlier: u32, later: u32) -> i64 {
    if made(Mistake::DifferenceReversed) {
        return i64::from(earlier) - i64::from(later);
    }
    i64::from(later) - i64::from(earlier)
}

fn went_backwards(difference: i64) -> bool {
    if made(Mistake::EqualIsBackwards) { difference <= 0 } else { difference < 0 }
}

#[test]
fn differences_are_exact_at_both_ends() {
    let mut out = [7; 4];
    let compared = compare_lamps(&[0, 5, u32::MAX], &[u32::MAX, 5, 0], &mut out);
    assert_eq!(compared, face::Compared { number: 0, backwards: true, place: 2 });
    assert_eq!(out, [4_294_967_295, 0, -4_294_967_295, 7]);
}

#[test]
fn tables_of_no_places_are_compared() {
    assert_eq!(compare_lamps(&[], &[], &mut []), face::Compared { number: 0, backwards: false, place: 0 });
}
