//! What can be wrong with a sheet, and where.

use std::fmt;

#[derive(Clone, Copy, Debug, PartialEq, Eq)]
pub enum Cause {
    SheetEnds,
    BadNumber,
    BadValue,
    TooLong,
    BadCount,
}

impl Cause {
    pub fn number(self) -> u8 {
        match self {
            Self::SheetEnds => 1,
            Self::BadNumber => 2,
            Self::BadValue | Self::TooLong => 3,
            Self::BadCount => 4,
        }
    }
}

#[derive(Clone, Copy, Debug, PartialEq, Eq)]
pub struct Fault {
    pub cause: Cause,
    pub offset: usize,
}

impl fmt::Display for Fault {
    fn fmt(&self, f: &mut fmt::Formatter<'_>) -> fmt::Result {
        write!(f, "stop {} at {}", self.cause.number(), self.offset)
    }
}
