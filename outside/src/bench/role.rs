//! What a station is to a line.

use crate::field::{Line, Station};

#[derive(Clone, Copy, Debug, PartialEq, Eq)]
pub enum Role {
    /// Trains on the line come from this station.
    Despatching,
    /// Trains on the line go to this station.
    Receiving,
}

impl Role {
    pub fn of(station: Station, line: Line) -> Self {
        match (line, station) {
            (Line::Up, Station::Zero) | (Line::Down, Station::One) => Self::Despatching,
            (Line::Up, Station::One) | (Line::Down, Station::Zero) => Self::Receiving,
        }
    }

    pub fn other(self) -> Self {
        match self {
            Self::Despatching => Self::Receiving,
            Self::Receiving => Self::Despatching,
        }
    }

    pub fn station(self, line: Line) -> Station {
        match (self, line) {
            (Self::Despatching, Line::Up) | (Self::Receiving, Line::Down) => Station::Zero,
            (Self::Despatching, Line::Down) | (Self::Receiving, Line::Up) => Station::One,
        }
    }
}
