//! At most one train, trolley or blocking occupies a line, as long as no train
//! has passed the stop signal at on, and every reset and resumption was
//! completed with the line empty.

use super::history::Happening;
use crate::bench::{Role, Signal};
use crate::field::Code;

#[derive(Clone, Default)]
pub struct Occupancy {
    /// For each train on the line, how many of its axles have still to leave.
    trains: Vec<u16>,
    trolleys: usize,
    blockings: usize,
    /// Something was done that the law does not answer for, ever after.
    excused: bool,
}

impl Occupancy {
    /// `stop_signal` is what it showed just before the event.
    pub fn see(&mut self, happened: Option<Happening>, stop_signal: Signal) {
        match happened {
            Some(Happening::TrainPassed { axles, .. }) => {
                self.excused |= stop_signal == Signal::On;
                self.trains.push(axles);
            }
            Some(Happening::AxlesLeft { axles, .. }) => self.axles_left(axles),
            Some(Happening::TrolleyStarted) => self.trolleys += 1,
            Some(Happening::TrolleyEnded) => self.trolleys = self.trolleys.saturating_sub(1),
            Some(Happening::Sent { code, sender: Role::Receiving })
            | Some(Happening::Consented { code, sender: Role::Despatching })
                if code == Code::ObstructionRemoved =>
            {
                self.blockings = 0;
            }
            Some(Happening::Consented { code: Code::BlockForward | Code::BlockBack, .. }) => {
                self.blockings += 1;
            }
            Some(Happening::ResetCompleted) => self.excused |= self.occupants() > 0,
            Some(Happening::ResumptionCompleted) => {
                self.excused |= self.occupants() > 0;
                self.trolleys = 0;
                self.blockings = 0;
            }
            _ => {}
        }
    }

    /// The axles count for every train that was on the line before.
    fn axles_left(&mut self, axles: u16) {
        for remaining in &mut self.trains {
            *remaining = remaining.saturating_sub(axles);
        }
        self.trains.retain(|&remaining| remaining > 0);
    }

    fn occupants(&self) -> usize {
        self.trains.len() + self.trolleys + self.blockings
    }

    pub fn at_most_one(&self) -> bool {
        self.excused || self.occupants() <= 1
    }
}
