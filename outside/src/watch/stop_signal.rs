//! A stop signal is off exactly when its control was reversed under a line
//! clear that is still unused, and since then the control has not been put
//! back, no train has passed, the detector has shown clear throughout, and the
//! line has not been suspended.

use super::history::Happening;
use crate::bench::{Record, Signal};
use crate::detector::Reading;
use crate::field::Position;

#[derive(Clone, Default)]
pub struct StopSignal {
    should_be_off: bool,
}

impl StopSignal {
    /// `unused` says whether a train has a line clear that is still unused, and
    /// `reading` what the detector shows, both after the event.
    pub fn see(&mut self, happened: Option<Happening>, reading: Reading, unused: bool) {
        match happened {
            Some(Happening::StopControl(Position::Reversed)) => self.should_be_off = true,
            Some(
                Happening::StopControl(Position::Normal)
                | Happening::TrainPassed { .. }
                | Happening::AxlesLeft { accepted: false, .. }
                | Happening::SuspendedWithOther,
            ) => self.should_be_off = false,
            _ => {}
        }
        self.should_be_off &= unused && reading == Reading::Clear;
    }

    pub fn agrees(&self, record: &Record) -> bool {
        self.should_be_off == (record.stop_signal == Signal::Off)
    }
}
