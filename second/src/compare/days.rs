//! Cutting days (RULES, Cutting day).

use super::random::Random;
use super::shrink::{lower_at, shorter};
use crate::face::{Act, Day};

pub fn check_day(random: &mut Random) -> Act {
    let (day, rigs) = any(random);
    Act::CheckDay { day, rigs }
}

pub fn plan_day(random: &mut Random) -> Act {
    let (day, rigs) = any(random);
    let room = match random.below(16) {
        0 => rigs.len().saturating_sub(1),
        1 => random.below(rigs.len() + 1),
        2..=5 => rigs.len() + random.below(8),
        _ => rigs.len(),
    };
    Act::PlanDay { day, lent: random.memory(room) }
}

/// A day and a rig for each of its jobs: kept just so, with something moved, crowded, or out of range.
fn any(random: &mut Random) -> (Day, Vec<u8>) {
    let (mut day, mut rigs) = if random.one_in(4) { crowded(random) } else { kept(random) };
    if !rigs.is_empty() {
        match random.below(32) {
            0..=11 => (0..random.pick(&[1, 1, 2, 6])).for_each(|_| move_something(random, &mut day, &mut rigs)),
            12..=15 => leave_the_range(random, &mut day, &mut rigs),
            16 => [&mut day.warm, &mut day.cool, &mut day.life].into_iter().for_each(Vec::clear),
            _ => (),
        }
    }
    (day, rigs)
}

/// Rigs alone, with all the life that there is.
fn rigs(random: &mut Random) -> Day {
    let count = random.pick(&[1, 1, 2, 3, 5, 7, 8]);
    let mut seconds = || (0..count).map(|_| random.pick(&[1, 2, 20, 60, 599, 600])).collect();
    Day { warm: seconds(), cool: seconds(), life: vec![u32::MAX; count], ..Day::default() }
}

/// Jobs without regard for one another, many at once.
fn crowded(random: &mut Random) -> (Day, Vec<u8>) {
    let mut day = rigs(random);
    let jobs = random.below(24);
    let span = random.pick(&[2_000, 20_000, 80_000]);
    day.starts = (0..jobs).map(|_| 500 + random.below(span) as u32).collect();
    day.lengths = (0..jobs).map(|_| 1 + random.below(1_000) as u32).collect();
    day.allowed = if random.one_in(4) { random.bytes_from(0, jobs) } else { vec![0xFF; jobs] };
    let rigs = (0..jobs).map(|_| random.below(day.warm.len()) as u8).collect();
    (day, rigs)
}

/// A day that keeps every rule, many of them just: stretches that touch, a last job that ends with the day, lamps that
/// burn all that they have left.
fn kept(random: &mut Random) -> (Day, Vec<u8>) {
    let mut day = rigs(random);
    let mut free = vec![0; day.warm.len()];
    let mut burnt = vec![0; day.warm.len()];
    let mut jobs = Vec::new();
    for _ in 0..random.from_to(1, 64) {
        let rig = random.below(free.len());
        let start = free[rig] + day.warm[rig] + random.pick(&[0, 0, 0, 1, 900]);
        let mut length = 1 + random.pick(&[0, 59, 600, 1_500]).min(random.below(1_500) as u32);
        if start < 86_400 && random.one_in(40) {
            length = 86_400 - start;
        }
        if start + length <= 86_400 {
            free[rig] = start + length + day.cool[rig];
            burnt[rig] += day.warm[rig] + length;
            let others = random.byte();
            jobs.push((start, length, 1 << rig | random.pick(&[0, others, 0xFF]), rig as u8));
        }
    }
    if random.one_in(2) {
        (1..jobs.len()).for_each(|place| jobs.swap(place, random.below(place + 1)));
    }
    day.starts = jobs.iter().map(|job| job.0).collect();
    day.lengths = jobs.iter().map(|job| job.1).collect();
    day.allowed = jobs.iter().map(|job| job.2).collect();
    day.life = burnt.iter().map(|&burnt| random.pick(&[burnt, burnt, burnt + 1, u32::MAX])).collect();
    (day, jobs.iter().map(|job| job.3).collect())
}

/// By a second, or by far.
fn move_something(random: &mut Random, day: &mut Day, rigs: &mut [u8]) {
    let (job, rig) = (random.below(rigs.len()), random.below(day.warm.len()));
    match random.below(19) {
        0..=2 => day.starts[job] = day.starts[job].saturating_sub(1),
        3..=4 => day.starts[job] = random.below(3_000) as u32,
        5..=6 => day.lengths[job] += 1,
        7..=8 => rigs[job] = random.pick(&[rig as u8, day.warm.len() as u8, 7, 8, 9, 255]),
        9 => day.allowed[job] = random.byte(),
        10..=11 => day.allowed[job] ^= 1 << (rigs[job] & 7),
        12..=14 => day.life[rig] = random.pick(&[0, day.life[rig].saturating_sub(1), day.life[rig] / 2]),
        15..=16 => day.warm[rig] += 1,
        _ => day.cool[rig] += 1,
    }
}

fn leave_the_range(random: &mut Random, day: &mut Day, rigs: &mut Vec<u8>) {
    let (job, rig) = (random.below(rigs.len()), random.below(day.warm.len()));
    let strange = random.pick(&[0, 601, 256, u32::MAX]);
    match random.below(12) {
        0 => day.lengths[job] = 0,
        1 => day.starts[job] = 86_401 - day.lengths[job],
        2 => day.starts[job] = u32::MAX - random.below(2) as u32,
        3 => day.lengths[job] = u32::MAX - random.pick(&[0, 1, day.starts[job]]),
        4 => day.warm[rig] = strange,
        5 => day.cool[rig] = strange,
        6 => {
            let jobs = random.pick(&[65, 66, 256, 300]);
            day.starts.resize(jobs, 40_000);
            day.lengths.resize(jobs, 1);
            day.allowed.resize(jobs, 0xFF);
            rigs.resize(jobs, 0);
        }
        7 => [&mut day.warm, &mut day.cool, &mut day.life].into_iter().for_each(|list| list.resize(9, 600)),
        8 => change_length(random, rigs),
        9 => change_length(random, &mut day.allowed),
        _ => {
            let lists = [&mut day.starts, &mut day.lengths, &mut day.warm, &mut day.cool, &mut day.life];
            let place = random.below(lists.len());
            change_length(random, lists.into_iter().nth(place).expect("one of them"));
        }
    }
}

fn change_length<T: From<u8>>(random: &mut Random, list: &mut Vec<T>) {
    if random.one_in(2) { drop(list.pop()) } else { list.push(1.into()) }
}

/// Fewer jobs, with what stands beside them (their rigs, or the result list), fewer rigs, shorter lists, lower numbers.
pub fn simpler(day: &Day, beside: &[u8]) -> Vec<(Day, Vec<u8>)> {
    let mut all = Vec::new();
    let jobs = shorter(&day.starts).zip(shorter(&day.lengths)).zip(shorter(&day.allowed)).zip(shorter(beside));
    all.extend(jobs.map(|(((starts, lengths), allowed), beside)| {
        let fewer = Day { starts, lengths, allowed, ..day.clone() };
        (fewer, beside)
    }));
    let rigs = shorter(&day.warm).zip(shorter(&day.cool)).zip(shorter(&day.life));
    all.extend(rigs.map(|((warm, cool), life)| (Day { warm, cool, life, ..day.clone() }, beside.to_vec())));
    macro_rules! each {
        ($by:ident: $($field:ident)*) => { $(
            all.extend($by(&day.$field).map(|simpler| (Day { $field: simpler, ..day.clone() }, beside.to_vec())));
        )* };
    }
    each!(shorter: starts lengths allowed warm cool life);
    all.extend(shorter(beside).map(|beside| (day.clone(), beside)));
    each!(lower_at: starts lengths warm cool life);
    let plain = (Day { allowed: vec![0xFF; day.allowed.len()], ..day.clone() }, vec![0; beside.len()]);
    all.extend([(day.clone(), plain.1), (plain.0, beside.to_vec())]);
    all.retain(|(simpler, simpler_beside)| simpler != day || simpler_beside != beside);
    all
}
