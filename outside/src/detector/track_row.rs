//! The detector that knows on which of eight tracks the axles are.

use super::{Detector, MOST_AXLES};
use crate::field::{Axles, Field, Track};

#[derive(Clone, Debug, PartialEq, Eq)]
pub struct TrackRow {
    tracks: [u16; 8],
    failed: bool,
}

impl Detector for TrackRow {
    fn fresh() -> Self {
        Self { tracks: [0; 8], failed: false }
    }

    fn count_in(&mut self, axles: Axles) {
        let room = MOST_AXLES - self.axles();
        self.failed |= axles.number() > room;
        self.tracks[0] += axles.number().min(room);
    }

    fn count_out(&mut self, axles: Axles) {
        let mut left = axles.number();
        for track in self.tracks.iter_mut().rev() {
            let off = left.min(*track);
            *track -= off;
            left -= off;
        }
        self.failed |= left > 0;
    }

    fn fail(&mut self) {
        self.failed = true;
    }

    fn reset(&mut self) {
        *self = Self::fresh();
    }

    fn roll(&mut self, track: Track) {
        let from = usize::from(track.number());
        self.tracks[from + 1] += self.tracks[from];
        self.tracks[from] = 0;
    }

    fn axles(&self) -> u16 {
        self.tracks.iter().sum()
    }

    fn has_failed(&self) -> bool {
        self.failed
    }
}
