//! A run: a fresh bench works events one after another.

use crate::bench::{Answer, Bench, View};
use crate::detector::Detector;
use crate::event::Event;

/// One event of a run, its answer, and the section it names just before and
/// just after, if there is such a section.
#[derive(Clone, Copy, Debug, PartialEq, Eq)]
pub struct Step {
    pub event: Event,
    pub answer: Answer,
    pub before: Option<View>,
    pub after: Option<View>,
}

pub struct Run<D> {
    bench: Bench<D>,
}

impl<D: Detector> Run<D> {
    pub fn new(sections: u16) -> Self {
        Self { bench: Bench::fresh(sections) }
    }

    pub fn step(&mut self, event: Event) -> Step {
        let before = self.view(event.section);
        let answer = self.bench.answer(event);
        let after = self.view(event.section);
        Step { event, answer, before, after }
    }

    fn view(&self, section: u16) -> Option<View> {
        self.bench.section(section).map(|section| section.view())
    }
}
