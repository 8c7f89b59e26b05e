//! What a bench says to an event.

/// An event that is not refused has happened, whatever came of it.
#[derive(Clone, Copy, Debug, PartialEq, Eq)]
pub enum Answer {
    Accepted,
    /// A train went past a stop signal that was on.
    PassedAtOn,
    /// Axles left the line that no train with a permit had brought.
    LeftUnexpectedly,
    Refused(Refusal),
}

/// Why an event is refused. Axles or a track outside their values are no event
/// here, so there is no refusal for them.
#[derive(Clone, Copy, Debug, PartialEq, Eq)]
pub enum Refusal {
    NoSection,
    /// The bell is not in the state, or not with the station, that is needed.
    Bell,
    WrongStation,
    Suspended,
    /// Needle, permit, use or end are not as needed.
    Permit,
    /// Wrong turn, or a consent that cannot be withheld.
    Turn,
    /// A signal or a control is not as needed.
    Control,
    NotClear,
    NotArrived,
    /// The call is not needed, or this station has called already.
    Call,
}

impl Answer {
    pub fn number(self) -> u8 {
        match self {
            Self::Accepted => 0,
            Self::Refused(Refusal::NoSection) => 4,
            Self::Refused(Refusal::Bell) => 5,
            Self::Refused(Refusal::WrongStation) => 6,
            Self::Refused(Refusal::Suspended) => 7,
            Self::Refused(Refusal::Permit) => 8,
            Self::Refused(Refusal::Turn) => 9,
            Self::Refused(Refusal::Control) => 10,
            Self::Refused(Refusal::NotClear) => 11,
            Self::Refused(Refusal::NotArrived) => 12,
            Self::Refused(Refusal::Call) => 13,
            Self::PassedAtOn => 90,
            Self::LeftUnexpectedly => 91,
        }
    }

    pub fn is_refusal(self) -> bool {
        matches!(self, Self::Refused(_))
    }
}

impl Refusal {
    /// The refusal, unless this is as it has to be.
    pub fn unless(self, right: bool) -> Result<(), Self> {
        if right {
            Ok(())
        } else {
            Err(self)
        }
    }
}
