//! The largest cutting day (RULES, Cutting day): 64 jobs, eight at a time, on 8 rigs that warm up and cool as long as
//! they may. Every job finds its rig after all those below it are taken, and every rule of the checker is kept to the
//! end.

use crate::work::{BOTH, By, Run, Work};
use second::face::{self, Day};
use second::reference::days;
use std::hint::black_box;

pub fn all() -> [Work; 2] {
    let work = |name, run: fn() -> Run| Work { name, sides: BOTH, prepare: Box::new(run) };
    [work("pj_check_day, 64 jobs on 8 rigs", checking), work("pj_plan_day, 64 jobs on 8 rigs", planning)]
}

fn largest() -> (Day, [u8; 64]) {
    let day = Day {
        starts: (0..64).map(|job| 600 + job / 8 * 10_200).collect(),
        lengths: vec![9_000; 64],
        allowed: vec![0xFF; 64],
        warm: vec![600; 8],
        cool: vec![600; 8],
        life: vec![8 * 9_600; 8],
    };
    let mut rigs = [0; 64];
    assert!(days::plan_day(&day, &mut rigs).planned);
    (day, rigs)
}

fn checking() -> Run {
    let (day, rigs) = largest();
    Box::new(move |by| {
        let (day, rigs) = (black_box(&day), black_box(&rigs));
        black_box(&match by {
            By::Nobody => return,
            By::Board => face::days::check_day(day, rigs),
            _ => days::check_day(day, rigs),
        });
    })
}

fn planning() -> Run {
    let (day, _) = largest();
    Box::new(move |by| {
        let (day, mut out) = (black_box(&day), [0; 64]);
        let out = black_box(&mut out);
        black_box(&match by {
            By::Nobody => return,
            By::Board => face::days::plan_day(day, out),
            _ => days::plan_day(day, out),
        });
    })
}
