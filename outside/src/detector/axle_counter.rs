//! The detector that counts axles at both ends of the line.

use super::{Detector, MOST_AXLES};
use crate::field::{Axles, Field, Track};

/// A total goes from 0 to one less than this, and round again.
const ROUND: u16 = 1_024;

#[derive(Clone, Debug, PartialEq, Eq)]
pub struct AxleCounter {
    total_in: u16,
    total_out: u16,
    failed: bool,
}

impl Detector for AxleCounter {
    fn fresh() -> Self {
        Self { total_in: 0, total_out: 0, failed: false }
    }

    fn count_in(&mut self, axles: Axles) {
        let room = MOST_AXLES - self.axles();
        self.failed |= axles.number() > room;
        self.total_in = (self.total_in + axles.number().min(room)) % ROUND;
    }

    fn count_out(&mut self, axles: Axles) {
        let present = self.axles();
        self.failed |= axles.number() > present;
        self.total_out = (self.total_out + axles.number().min(present)) % ROUND;
    }

    fn fail(&mut self) {
        self.failed = true;
    }

    fn reset(&mut self) {
        *self = Self::fresh();
    }

    /// An axle counter has no tracks.
    fn roll(&mut self, _: Track) {}

    fn axles(&self) -> u16 {
        (self.total_in + ROUND - self.total_out) % ROUND
    }

    fn has_failed(&self) -> bool {
        self.failed
    }
}
