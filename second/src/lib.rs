//! The reference program: the rules (docs/RULES.md) written a second time, plainly, by someone who did not look at the
//! proved crates; then compared with them, call by call, through the archive that a host links (`libboard.a`).

pub mod burnt;
pub mod burnts;
pub mod compare;
pub mod face;
pub mod logs;
pub mod pages;
pub mod reference;
pub mod replay;
pub mod tally;
pub mod wrong;
