//! Every line clear given, to a train or a trolley, is used, cancelled,
//! withdrawn by a resumption, or still unused; and never two of these.

use super::history::Happening;
use crate::bench::Record;
use crate::field::Code;

#[derive(Clone, Default)]
pub struct Account {
    given: usize,
    used: usize,
    cancelled: usize,
    withdrawn: usize,
    last_given_to_train: bool,
}

impl Account {
    pub fn see(&mut self, happened: Option<Happening>) {
        match happened {
            Some(Happening::Consented { code, .. }) => self.see_consent(code),
            Some(Happening::TrainPassed { accepted: true, .. } | Happening::TrolleyStarted) => {
                self.used += 1;
            }
            Some(Happening::ResumptionCompleted) => self.withdrawn += self.remaining(),
            _ => {}
        }
    }

    fn see_consent(&mut self, code: Code) {
        match code {
            Code::IsLineClear | Code::Trolley => {
                self.given += 1;
                self.last_given_to_train = code == Code::IsLineClear;
            }
            // The cancelling of a trolley that has come back is none of a line
            // clear: that one was used.
            Code::CancelLast if self.remaining() > 0 => self.cancelled += 1,
            _ => {}
        }
    }

    /// Line clears given that nothing has become of yet.
    fn remaining(&self) -> usize {
        self.given.saturating_sub(self.used + self.cancelled + self.withdrawn)
    }

    /// Whether a train has a line clear that is still unused.
    pub fn unused_for_train(&self) -> bool {
        self.last_given_to_train && self.remaining() > 0
    }

    /// Only the line clear that is still unused is read off the record.
    pub fn balances(&self, record: &Record) -> bool {
        let unused = usize::from(record.train_or_trolley() && !record.used);
        self.given == self.used + self.cancelled + self.withdrawn + unused
    }
}
