//! Events as typed values, and the words a listing has for them.

use std::fmt;

use crate::field::{Axles, Code, Consent, Kind, Line, Place, Position, Station, Track, Turn};

/// What happens, and in which section; the section may be one that no bench has.
#[derive(Clone, Copy, Debug, PartialEq, Eq)]
pub struct Event {
    pub section: u16,
    pub action: Action,
}

/// What happens in a section, with its fields in sheet order.
#[derive(Clone, Copy, Debug, PartialEq, Eq)]
pub enum Action {
    Call { station: Station },
    Answer { station: Station },
    Send { line: Line, station: Station, code: Code, turn: Turn },
    Acknowledge { station: Station, consent: Consent, turn: Turn },
    Error { station: Station },
    StopControl { line: Line, position: Position },
    HomeControl { line: Line, position: Position },
    Enters { line: Line, axles: Axles },
    Leave { line: Line, axles: Axles },
    TrolleyStarts { line: Line },
    TrolleyEnds { line: Line, place: Place },
    Fails { line: Line },
    Reset { line: Line, station: Station },
    Resume { line: Line, station: Station },
    Roll { line: Line, track: Track },
}

impl fmt::Display for Event {
    fn fmt(&self, f: &mut fmt::Formatter<'_>) -> fmt::Result {
        write!(f, "section {} {}", self.section, self.action)
    }
}

impl Action {
    pub fn kind(self) -> Kind {
        match self {
            Self::Call { .. } => Kind::Call,
            Self::Answer { .. } => Kind::Answer,
            Self::Send { .. } => Kind::Send,
            Self::Acknowledge { .. } => Kind::Acknowledge,
            Self::Error { .. } => Kind::Error,
            Self::StopControl { .. } => Kind::StopControl,
            Self::HomeControl { .. } => Kind::HomeControl,
            Self::Enters { .. } => Kind::Enters,
            Self::Leave { .. } => Kind::Leave,
            Self::TrolleyStarts { .. } => Kind::TrolleyStarts,
            Self::TrolleyEnds { .. } => Kind::TrolleyEnds,
            Self::Fails { .. } => Kind::Fails,
            Self::Reset { .. } => Kind::Reset,
            Self::Resume { .. } => Kind::Resume,
            Self::Roll { .. } => Kind::Roll,
        }
    }
}

impl fmt::Display for Action {
    fn fmt(&self, f: &mut fmt::Formatter<'_>) -> fmt::Result {
        write!(f, "{}", self.kind())?;
        match self {
            Self::Call { station } | Self::Answer { station } | Self::Error { station } => {
                write!(f, " station {station}")
            }
            Self::Send { line, station, code, turn } => {
                write!(f, " line {line} station {station} code {code} turn {turn}")
            }
            Self::Acknowledge { station, consent, turn } => {
                write!(f, " station {station} consent {consent} turn {turn}")
            }
            Self::StopControl { line, position } | Self::HomeControl { line, position } => {
                write!(f, " line {line} position {position}")
            }
            Self::Enters { line, axles } | Self::Leave { line, axles } => {
                write!(f, " line {line} axles {axles}")
            }
            Self::TrolleyStarts { line } | Self::Fails { line } => write!(f, " line {line}"),
            Self::TrolleyEnds { line, place } => write!(f, " line {line} place {place}"),
            Self::Reset { line, station } | Self::Resume { line, station } => {
                write!(f, " line {line} station {station}")
            }
            Self::Roll { line, track } => write!(f, " line {line} track {track}"),
        }
    }
}
