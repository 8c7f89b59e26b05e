//! Watches runs for the laws that hold of every list of events, whatever is in
//! it. Each law counts for itself, from the events and their answers.

mod account;
mod history;
mod occupancy;
mod record;
mod stop_signal;

use std::fmt;

use account::Account;
use history::History;
use occupancy::Occupancy;
use stop_signal::StopSignal;

use crate::bench::{place, View};
use crate::detector::Detector;
use crate::field::{Field, Line};
use crate::reader::Reader;
use crate::run::{Run, Step};

#[derive(Clone, Copy, Debug, PartialEq, Eq)]
pub enum Law {
    Account,
    StopSignal,
    Occupancy,
    Record,
    Refusal,
}

impl fmt::Display for Law {
    fn fmt(&self, f: &mut fmt::Formatter<'_>) -> fmt::Result {
        f.write_str(match self {
            Self::Account => "line clears given are not those used, cancelled, withdrawn or unused",
            Self::StopSignal => "the stop signal is not off exactly when it should be",
            Self::Occupancy => "more than one train, trolley or blocking occupies the line",
            Self::Record => "needle, permit, signal and suspension do not agree",
            Self::Refusal => "a refused event has changed something",
        })
    }
}

/// A law that a run broke, and the event by which it did.
#[derive(Clone, Copy, Debug, PartialEq, Eq)]
pub struct Violation {
    pub law: Law,
    pub line: Line,
    pub index: usize,
}

impl fmt::Display for Violation {
    fn fmt(&self, f: &mut fmt::Formatter<'_>) -> fmt::Result {
        write!(f, "event {}, line {}: {}", self.index, self.line, self.law)
    }
}

/// Watches the run of one bench from its beginning.
pub struct Watcher {
    sections: Vec<SectionWatch>,
    events: usize,
}

#[derive(Clone, Default)]
struct SectionWatch {
    history: History,
    lines: [LineWatch; 2],
}

#[derive(Clone, Default)]
struct LineWatch {
    account: Account,
    stop_signal: StopSignal,
    occupancy: Occupancy,
}

impl Watcher {
    pub fn new(sections: u16) -> Self {
        Self { sections: vec![SectionWatch::default(); sections.into()], events: 0 }
    }

    /// Takes down the next step of the run. Any of the laws may be found broken
    /// after it.
    pub fn see(&mut self, step: &Step) -> Result<(), Violation> {
        let index = self.events;
        self.events += 1;
        let section = self.sections.get_mut(usize::from(step.event.section));
        let (Some(section), Some(before), Some(after)) = (section, step.before, step.after) else {
            return Ok(());
        };
        match section.see(step, &before, &after) {
            Some((line, law)) => Err(Violation { law, line, index }),
            None => Ok(()),
        }
    }
}

impl SectionWatch {
    fn see(&mut self, step: &Step, before: &View, after: &View) -> Option<(Line, Law)> {
        let happened = self.history.tell(step.event.action, step.answer);
        let refused = step.answer.is_refusal();
        Line::every().find_map(|line| {
            let watch = &mut self.lines[place(line)];
            let (old, new) = (before.line(line), after.line(line));
            let mine = happened.as_ref().and_then(|told| told.to(line));
            watch.account.see(mine);
            watch.stop_signal.see(mine, new.reading, watch.account.unused_for_train());
            watch.occupancy.see(mine, old.record.stop_signal);
            let law = if !watch.account.balances(&new.record) {
                Law::Account
            } else if !watch.stop_signal.agrees(&new.record) {
                Law::StopSignal
            } else if !watch.occupancy.at_most_one() {
                Law::Occupancy
            } else if !record::is_consistent(&new.record) {
                Law::Record
            } else if refused && before != after {
                Law::Refusal
            } else {
                return None;
            };
            Some((line, law))
        })
    }
}

/// The first violation in the run of a sheet, as far as it can be read.
pub fn first_violation<D: Detector>(sheet: &[u8]) -> Option<Violation> {
    let reader = Reader::open(sheet).ok()?;
    let mut run = Run::<D>::new(reader.sections());
    let mut watcher = Watcher::new(reader.sections());
    reader.map_while(Result::ok).find_map(|placed| watcher.see(&run.step(placed.event)).err())
}
