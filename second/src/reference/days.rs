//! RULES, Cutting day: "A cutting day, planned and checked." Jobs and rigs are numbered by their places, from 0.

use super::calls::OUT_OF_RANGE;
use super::rules::{Mistake, made};
use crate::face;
use std::ops::Range;

/// "up to 64 jobs and, for each, one of up to 8 rigs".
const MOST_JOBS: usize = 64;
const MOST_RIGS: usize = 8;
/// "end at most 86,400".
const DAY: u64 = 86_400;

struct Job {
    start: u64,
    length: u64,
    allowed: u8,
}

struct Rig {
    warm: u64,
    cool: u64,
    life: u64,
}

enum Broken {
    NoRig { job: usize },
    StartsEarly { job: usize },
    Clash { first: usize, second: usize },
    BurnsMore { rig: usize },
}

pub fn check_day(day: &face::Day, rigs_of_jobs: &[u8]) -> face::Verdict {
    let verdict = |number, rule, first, second| face::Verdict { number, rule, first, second };
    match read(day) {
        Some((jobs, rigs)) if rigs_of_jobs.len() == jobs.len() => match first_broken(&jobs, &rigs, rigs_of_jobs) {
            None => verdict(0, 0, 0, 0),
            Some(Broken::NoRig { job }) => verdict(0, 1, job, 0),
            Some(Broken::StartsEarly { job }) => verdict(0, 2, job, 0),
            Some(Broken::Clash { first, second }) => verdict(0, 3, first, second),
            Some(Broken::BurnsMore { rig }) => verdict(0, 4, rig, 0),
        },
        _ => verdict(OUT_OF_RANGE, 0, 0, 0),
    }
}

pub fn plan_day(day: &face::Day, out: &mut [u8]) -> face::Plan {
    match read(day) {
        Some((jobs, rigs)) if out.len() >= jobs.len() => match plan(&jobs, &rigs) {
            Ok(chosen) => {
                out[..chosen.len()].copy_from_slice(&chosen);
                face::Plan { number: 0, planned: true, job: 0 }
            }
            Err(job) => face::Plan { number: 0, planned: false, job },
        },
        _ => face::Plan { number: OUT_OF_RANGE, planned: false, job: 0 },
    }
}

/// "Over 64 jobs, over 8 rigs, other than one rig a job, a length or end out of range, or W or C outside 1 to 600 is
/// 3." The rigs of the jobs are the checker's alone.
fn read(day: &face::Day) -> Option<(Vec<Job>, Vec<Rig>)> {
    let (jobs, rigs) = (day.starts.len(), day.warm.len());
    let told_of_each =
        [day.lengths.len(), day.allowed.len()] == [jobs; 2] && [day.cool.len(), day.life.len()] == [rigs; 2];
    if jobs > MOST_JOBS || rigs > MOST_RIGS || !told_of_each {
        return None;
    }
    let job =
        |job| Job { start: u64::from(day.starts[job]), length: u64::from(day.lengths[job]), allowed: day.allowed[job] };
    let rig =
        |rig| Rig { warm: u64::from(day.warm[rig]), cool: u64::from(day.cool[rig]), life: u64::from(day.life[rig]) };
    let jobs: Vec<Job> = (0..jobs).map(job).collect();
    let rigs: Vec<Rig> = (0..rigs).map(rig).collect();
    let in_range = jobs.iter().all(|job| job.length >= 1 && job.start + job.length <= DAY)
        && rigs.iter().all(|rig| (1..=600).contains(&rig.warm) && (1..=600).contains(&rig.cool));
    in_range.then_some((jobs, rigs))
}

/// "The checker accepts exactly if each job has a rig that exists and is allowed, no job starts before its rig's W, no
/// two occupied stretches on one rig share a second, and no rig burns more than it has left; otherwise it names the
/// first rule broken in that order and the lowest job or rig concerned (of two clashing jobs, the pair with the lowest
/// first job, then second)."
fn first_broken(jobs: &[Job], rigs: &[Rig], chosen: &[u8]) -> Option<Broken> {
    let rig_of = |job: usize| usize::from(chosen[job]);
    let has_rig = |job: usize| rig_of(job) < rigs.len() && jobs[job].allowed >> rig_of(job) & 1 == 1;
    if let Some(job) = (0..jobs.len()).find(|&job| !has_rig(job)) {
        return Some(Broken::NoRig { job });
    }
    if let Some(job) = (0..jobs.len()).find(|&job| jobs[job].start < rigs[rig_of(job)].warm) {
        return Some(Broken::StartsEarly { job });
    }
    let occupied = |job: usize| jobs[job].occupies(&rigs[rig_of(job)]);
    for first in 0..jobs.len() {
        for second in first + 1..jobs.len() {
            if rig_of(first) == rig_of(second) && share_a_second(occupied(first), occupied(second)) {
                return Some(Broken::Clash { first, second });
            }
        }
    }
    let burnt = |rig: usize| -> u64 {
        (0..jobs.len()).filter(|&job| rig_of(job) == rig).map(|job| jobs[job].burns(&rigs[rig])).sum()
    };
    let burns_more =
        |&rig: &usize| burnt(rig) > rigs[rig].life || made(Mistake::AllLeftRefused) && burnt(rig) == rigs[rig].life;
    (0..rigs.len()).find(burns_more).map(|rig| Broken::BurnsMore { rig })
}

impl Job {
    /// "On its rig a job occupies W seconds before its start, its length, and C after". It starts no earlier than W.
    fn occupies(&self, rig: &Rig) -> Range<u64> {
        self.start - rig.warm..self.start + self.length + rig.cool
    }

    /// "it burns W plus its length".
    fn burns(&self, rig: &Rig) -> u64 {
        rig.warm + self.length
    }
}

fn share_a_second(one: Range<u64>, other: Range<u64>) -> bool {
    let (begin, end) = (one.start.max(other.start), one.end.min(other.end));
    begin < end || made(Mistake::TouchingClashes) && begin == end
}

/// "jobs in the order given, each on the lowest-numbered rig that keeps every rule with those already placed; it fails,
/// naming the first such job, exactly if some job finds none."
fn plan(jobs: &[Job], rigs: &[Rig]) -> Result<Vec<u8>, usize> {
    let mut order: Vec<u8> = (0..rigs.len() as u8).collect();
    if made(Mistake::HighestRigFirst) {
        order.reverse();
    }
    let mut chosen = Vec::new();
    for job in 0..jobs.len() {
        let keeps = |rig: &&u8| first_broken(&jobs[..=job], rigs, &[&chosen[..], &[**rig]].concat()).is_none();
        chosen.push(*order.iter().find(keeps).ok_or(job)?);
    }
    Ok(chosen)
}

#[cfg(test)]
mod tests {
    use super::*;

    /// Two rigs with W 10, C 5 and the life told; jobs of ten seconds that start then, allowed everywhere.
    fn day(starts: &[u32], life: [u32; 2]) -> face::Day {
        let (lengths, allowed) = (vec![10; starts.len()], vec![0xFF; starts.len()]);
        let (warm, cool, life) = (vec![10; 2], vec![5; 2], life.to_vec());
        face::Day { starts: starts.to_vec(), lengths, allowed, warm, cool, life }
    }

    fn verdict(day: &face::Day, rigs: &[u8]) -> (u32, u8, usize, usize) {
        let face::Verdict { number, rule, first, second } = check_day(day, rigs);
        (number, rule, first, second)
    }

    #[test]
    fn each_rule_to_its_last_second() {
        assert_eq!(verdict(&day(&[10, 35, 86_390], [60, 0]), &[0, 0, 0]), (0, 0, 0, 0));
        assert_eq!(verdict(&day(&[10, 34, 86_390], [60, 0]), &[0, 0, 0]), (0, 3, 0, 1));
        assert_eq!(verdict(&day(&[10, 35, 86_390], [59, 0]), &[0, 0, 0]), (0, 4, 0, 0));
        assert_eq!(verdict(&day(&[10, 9, 86_390], [60, 0]), &[0, 0, 0]), (0, 2, 1, 0));
        assert_eq!(verdict(&day(&[10, 9, 86_390], [60, 0]), &[0, 0, 2]), (0, 1, 2, 0));
        assert_eq!(verdict(&day(&[10, 9, 86_391], [60, 0]), &[0, 0, 2]), (3, 0, 0, 0));
        assert_eq!(verdict(&day(&[10], [60, 0]), &[]), (3, 0, 0, 0));
        assert_eq!(verdict(&day(&[], [0, 0]), &[]), (0, 0, 0, 0));
    }

    #[test]
    fn the_lowest_rig_that_keeps_every_rule() {
        let mut out = [9; 4];
        let planned = plan_day(&day(&[10, 34, 35], [40, 20]), &mut out);
        assert_eq!((planned, out), (face::Plan { number: 0, planned: true, job: 0 }, [0, 1, 0, 9]));
        let failed = plan_day(&day(&[10, 34, 36, 35], [40, 20]), &mut out);
        assert_eq!((failed, out), (face::Plan { number: 0, planned: false, job: 3 }, [0, 1, 0, 9]));
        let refused = plan_day(&day(&[10, 34, 35], [40, 20]), &mut out[..2]);
        assert_eq!((refused, out), (face::Plan { number: 3, planned: false, job: 0 }, [0, 1, 0, 9]));
    }

    #[test]
    fn stretches_share_a_second_or_none() {
        let all: Vec<Range<u64>> = (0..6).flat_map(|start| (start + 1..7).map(move |end| start..end)).collect();
        for one in &all {
            for other in &all {
                let shared = one.clone().any(|second| other.contains(&second));
                assert_eq!(share_a_second(one.clone(), other.clone()), shared, "{one:?} {other:?}");
            }
        }
    }
}
