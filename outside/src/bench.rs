//! The bench: sections that answer events, written once over every kind of
//! detector.

mod answer;
mod bell;
mod message;
mod record;
mod role;
mod section;
mod view;

pub use answer::{Answer, Refusal};
pub use bell::Bell;
pub use message::Message;
pub use record::{End, Needle, Permit, Record, Signal};
pub use role::Role;
pub use section::Section;
pub use view::{place, LineView, View};

use crate::detector::Detector;
use crate::event::Event;

pub struct Bench<D> {
    sections: Vec<Section<D>>,
}

impl<D: Detector> Bench<D> {
    pub fn fresh(sections: u16) -> Self {
        Self { sections: vec![Section::fresh(); sections.into()] }
    }

    pub fn section(&self, number: u16) -> Option<&Section<D>> {
        self.sections.get(usize::from(number))
    }

    /// Works the event and answers it. A refused event changes nothing.
    pub fn answer(&mut self, event: Event) -> Answer {
        match self.sections.get_mut(usize::from(event.section)) {
            Some(section) => section.answer(event.action),
            None => Answer::Refused(Refusal::NoSection),
        }
    }
}
