//! What tells whether a line is occupied. A detector may keep what it likes; it
//! behaves as if it kept the axles on the line and whether it has failed.

mod axle_counter;
mod track_row;

pub use axle_counter::AxleCounter;
pub use track_row::TrackRow;

use crate::field::{Axles, Track};

/// More axles than this cannot be told apart, so they make a detector fail.
pub const MOST_AXLES: u16 = 1_000;

#[derive(Clone, Copy, Debug, PartialEq, Eq)]
pub enum Reading {
    Clear,
    Occupied,
    Failed,
}

pub trait Detector: Clone {
    /// A detector of an empty line that has not failed.
    fn fresh() -> Self;

    /// Axles come onto the line, as many as there is room for. If that is not
    /// all of them, the detector fails.
    fn count_in(&mut self, axles: Axles);

    /// Axles go off the line, as many as are there. If that is not all of them,
    /// the detector fails.
    fn count_out(&mut self, axles: Axles);

    /// The detector fails; it goes on counting.
    fn fail(&mut self);

    /// No axles, and not failed.
    fn reset(&mut self);

    /// What stands on this track moves on to the next. It is still on the line.
    fn roll(&mut self, track: Track);

    fn axles(&self) -> u16;

    fn has_failed(&self) -> bool;

    fn read(&self) -> Reading {
        match (self.has_failed(), self.axles()) {
            (true, _) => Reading::Failed,
            (false, 0) => Reading::Clear,
            (false, _) => Reading::Occupied,
        }
    }
}
