//! The calls on a cutting day, linked: `linked` has the others, and what makes each call safe.

use super::{Day, Plan, Verdict};

unsafe extern "C" {
    fn pj_check_day(
        starts: *const u32,
        starts_length: usize,
        lengths: *const u32,
        lengths_length: usize,
        allowed: *const u8,
        allowed_length: usize,
        rigs_of_jobs: *const u8,
        rigs_of_jobs_length: usize,
        warm: *const u32,
        warm_length: usize,
        cool: *const u32,
        cool_length: usize,
        life: *const u32,
        life_length: usize,
    ) -> Verdict;
    fn pj_plan_day(
        starts: *const u32,
        starts_length: usize,
        lengths: *const u32,
        lengths_length: usize,
        allowed: *const u8,
        allowed_length: usize,
        warm: *const u32,
        warm_length: usize,
        cool: *const u32,
        cool_length: usize,
        life: *const u32,
        life_length: usize,
        out: *mut u8,
        out_length: usize,
    ) -> Plan;
}

pub fn check_day(day: &Day, rigs: &[u8]) -> Verdict {
    let Day { starts, lengths, allowed, warm, cool, life } = day;
    unsafe {
        #[rustfmt::skip]
        let verdict = pj_check_day(
            starts.as_ptr(), starts.len(), lengths.as_ptr(), lengths.len(), allowed.as_ptr(), allowed.len(),
            rigs.as_ptr(), rigs.len(), warm.as_ptr(), warm.len(), cool.as_ptr(), cool.len(), life.as_ptr(), life.len(),
        );
        verdict
    }
}

pub fn plan_day(day: &Day, out: &mut [u8]) -> Plan {
    let Day { starts, lengths, allowed, warm, cool, life } = day;
    unsafe {
        #[rustfmt::skip]
        let plan = pj_plan_day(
            starts.as_ptr(), starts.len(), lengths.as_ptr(), lengths.len(), allowed.as_ptr(), allowed.len(),
            warm.as_ptr(), warm.len(), cool.as_ptr(), cool.len(), life.as_ptr(), life.len(),
            out.as_mut_ptr(), out.len(),
        );
        plan
    }
}
