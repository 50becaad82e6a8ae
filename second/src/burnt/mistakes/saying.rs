//! Over what is said on standard error.

use super::Wrong;
use crate::replay::unplayed::all_said;

pub const SAYING: &[(&str, Wrong)] = all_said!(Wrong);
