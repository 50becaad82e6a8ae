//! What stands beside the projector: tables of lamp seconds compared (RULES, Service), cutting days checked and planned
//! (RULES, Cutting day).

#[repr(C)]
#[derive(Clone, Copy, PartialEq, Eq, Debug)]
pub struct Compared {
    pub number: u32,
    pub backwards: bool,
    pub place: usize,
}

/// What both calls on a cutting day are lent, job by job and rig by rig. Bit k of `allowed` stands for rig k.
#[derive(Clone, PartialEq, Eq, Debug, Default)]
pub struct Day {
    pub starts: Vec<u32>,
    pub lengths: Vec<u32>,
    pub allowed: Vec<u8>,
    pub warm: Vec<u32>,
    pub cool: Vec<u32>,
    pub life: Vec<u32>,
}

/// `rule` is 0 where the day is accepted, else the first that is broken; `first` the job or rig, `second` the other job
/// of a clash.
#[repr(C)]
#[derive(Clone, Copy, PartialEq, Eq, Debug)]
pub struct Verdict {
    pub number: u32,
    pub rule: u8,
    pub first: usize,
    pub second: usize,
}

/// `job` is the first that finds no rig, 0 where the day is planned.
#[repr(C)]
#[derive(Clone, Copy, PartialEq, Eq, Debug)]
pub struct Plan {
    pub number: u32,
    pub planned: bool,
    pub job: usize,
}
