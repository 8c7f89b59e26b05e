//! The bell of a section, and who has its turn to ring it.

use super::{Message, Refusal, Role};
use crate::field::{Code, Line, Station};

#[derive(Clone, Copy, Debug, PartialEq, Eq)]
pub enum Bell {
    Idle,
    Called { caller: Station },
    Attentive { caller: Station },
    Pending { caller: Station, line: Line, code: Code },
}

impl Bell {
    pub fn call(&mut self, station: Station) -> Result<(), Refusal> {
        Refusal::Bell.unless(*self == Self::Idle)?;
        *self = Self::Called { caller: station };
        Ok(())
    }

    pub fn answer(&mut self, station: Station) -> Result<(), Refusal> {
        match *self {
            Self::Called { caller } if caller != station => *self = Self::Attentive { caller },
            _ => return Err(Refusal::Bell),
        }
        Ok(())
    }

    /// Given in error: whatever has been rung is dropped, and nothing undone.
    pub fn error(&mut self) -> Result<(), Refusal> {
        Refusal::Bell.unless(*self != Self::Idle)?;
        *self = Self::Idle;
        Ok(())
    }

    /// Whether the other station waits for a code from this one.
    pub fn ready_for(self, station: Station) -> bool {
        self == Self::Attentive { caller: station }
    }

    /// The message that this station has to acknowledge, and its line.
    pub fn pending_for(self, station: Station) -> Option<(Line, Message)> {
        match self {
            Self::Pending { caller, line, code } if caller != station => {
                Some((line, Message { code, sender: Role::of(caller, line) }))
            }
            _ => None,
        }
    }
}
