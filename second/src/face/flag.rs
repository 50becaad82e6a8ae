//! A flag of a record: a byte, of which a legal record has 0 or 1. A record that is lent may have any byte there.

use std::ops::Not;

#[repr(transparent)]
#[derive(Clone, Copy, PartialEq, Eq, Debug, Default)]
pub struct Flag(pub u8);

impl Flag {
    pub const NO: Flag = Flag(0);
    pub const YES: Flag = Flag(1);

    /// What a flag of a legal record says; nothing of any other byte.
    pub fn read(self) -> Option<bool> {
        match self.0 {
            0 => Some(false),
            1 => Some(true),
            _ => None,
        }
    }

    /// As C reads a number: whether it is not 0.
    pub fn is_raised(self) -> bool {
        self.0 != 0
    }
}

impl From<bool> for Flag {
    fn from(raised: bool) -> Flag {
        Flag(u8::from(raised))
    }
}

/// The other one of the two that a legal record may have.
impl Not for Flag {
    type Output = Flag;

    fn not(self) -> Flag {
        Flag::from(!self.is_raised())
    }
}
