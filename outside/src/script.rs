//! Writes down what is done on one line, in terms of its two stations.

use crate::bench::Role;
use crate::event::{Action, Event};
use crate::field::{Axles, Code, Consent, Field, Line, Place, Position, Track, Turn};

#[derive(Clone)]
pub struct Script {
    section: u16,
    line: Line,
    events: Vec<Event>,
}

impl Script {
    pub fn new(section: u16, line: Line) -> Self {
        Self { section, line, events: Vec::new() }
    }

    pub fn into_events(self) -> Vec<Event> {
        self.events
    }

    /// Goes on with another line, or in another section.
    pub fn over_to(self, section: u16, line: Line) -> Self {
        Self { section, line, ..self }
    }

    /// Goes on with the other line of the section.
    pub fn other_line(self) -> Self {
        let line = match self.line {
            Line::Up => Line::Down,
            Line::Down => Line::Up,
        };
        Self { line, ..self }
    }

    pub fn then(self, more: impl FnOnce(Self) -> Self) -> Self {
        more(self)
    }

    pub fn call(self, by: Role) -> Self {
        let station = by.station(self.line);
        self.add(Action::Call { station })
    }

    pub fn answer(self, by: Role) -> Self {
        let station = by.station(self.line);
        self.add(Action::Answer { station })
    }

    pub fn send(self, by: Role, code: Code, turn: Turn) -> Self {
        let (line, station) = (self.line, by.station(self.line));
        self.add(Action::Send { line, station, code, turn })
    }

    /// Acknowledges with consent.
    pub fn consent(self, by: Role, turn: Turn) -> Self {
        let station = by.station(self.line);
        self.add(Action::Acknowledge { station, consent: Consent::Given, turn })
    }

    /// Acknowledges without consent.
    pub fn withhold(self, by: Role) -> Self {
        let station = by.station(self.line);
        self.add(Action::Acknowledge { station, consent: Consent::Withheld, turn: Turn::None })
    }

    pub fn given_in_error(self, by: Role) -> Self {
        let station = by.station(self.line);
        self.add(Action::Error { station })
    }

    pub fn stop_control(self, position: Position) -> Self {
        let line = self.line;
        self.add(Action::StopControl { line, position })
    }

    pub fn home_control(self, position: Position) -> Self {
        let line = self.line;
        self.add(Action::HomeControl { line, position })
    }

    pub fn enters(self, axles: u16) -> Self {
        let (line, axles) = (self.line, checked(Axles::from_number(axles)));
        self.add(Action::Enters { line, axles })
    }

    pub fn leave(self, axles: u16) -> Self {
        let (line, axles) = (self.line, checked(Axles::from_number(axles)));
        self.add(Action::Leave { line, axles })
    }

    pub fn trolley_starts(self) -> Self {
        let line = self.line;
        self.add(Action::TrolleyStarts { line })
    }

    pub fn trolley_ends(self, place: Place) -> Self {
        let line = self.line;
        self.add(Action::TrolleyEnds { line, place })
    }

    pub fn detector_fails(self) -> Self {
        let line = self.line;
        self.add(Action::Fails { line })
    }

    pub fn reset(self, by: Role) -> Self {
        let (line, station) = (self.line, by.station(self.line));
        self.add(Action::Reset { line, station })
    }

    pub fn resume(self, by: Role) -> Self {
        let (line, station) = (self.line, by.station(self.line));
        self.add(Action::Resume { line, station })
    }

    pub fn roll(self, track: u16) -> Self {
        let (line, track) = (self.line, checked(Track::from_number(track)));
        self.add(Action::Roll { line, track })
    }

    fn add(mut self, action: Action) -> Self {
        self.events.push(Event { section: self.section, action });
        self
    }
}

fn checked<F: Field>(field: Option<F>) -> F {
    field.expect("a script keeps to the values of its fields")
}

/// What is done again and again.
impl Script {
    /// Calls, is answered, and sends a code.
    pub fn ring(self, by: Role, code: Code, turn: Turn) -> Self {
        self.call(by).answer(by.other()).send(by, code, turn)
    }

    pub fn line_clear(self) -> Self {
        self.ring(Role::Despatching, Code::IsLineClear, Turn::None)
            .consent(Role::Receiving, Turn::Right)
    }

    /// A train that has line clear goes onto the line.
    pub fn train_departs(self, axles: u16) -> Self {
        self.stop_control(Position::Reversed)
            .enters(axles)
            .stop_control(Position::Normal)
            .ring(Role::Despatching, Code::TrainEntering, Turn::None)
            .consent(Role::Receiving, Turn::Left)
    }

    pub fn train_arrives(self, axles: u16) -> Self {
        self.home_control(Position::Reversed).leave(axles).home_control(Position::Normal)
    }

    pub fn train_out(self) -> Self {
        self.ring(Role::Receiving, Code::TrainOut, Turn::Right)
            .consent(Role::Despatching, Turn::None)
    }

    pub fn cancel(self, turn: Turn) -> Self {
        self.ring(Role::Despatching, Code::CancelLast, Turn::None).consent(Role::Receiving, turn)
    }

    pub fn trolley_given(self) -> Self {
        self.ring(Role::Despatching, Code::Trolley, Turn::None).consent(Role::Receiving, Turn::Left)
    }

    pub fn block_forward(self) -> Self {
        self.ring(Role::Despatching, Code::BlockForward, Turn::None)
            .consent(Role::Receiving, Turn::Left)
    }

    pub fn forward_removed(self) -> Self {
        self.ring(Role::Despatching, Code::ObstructionRemoved, Turn::None)
            .consent(Role::Receiving, Turn::Right)
    }

    pub fn block_back(self) -> Self {
        self.ring(Role::Receiving, Code::BlockBack, Turn::None)
            .consent(Role::Despatching, Turn::None)
    }

    pub fn back_removed(self) -> Self {
        self.ring(Role::Receiving, Code::ObstructionRemoved, Turn::Right)
            .consent(Role::Despatching, Turn::None)
    }

    pub fn both_reset(self) -> Self {
        self.reset(Role::Receiving).reset(Role::Despatching)
    }

    pub fn both_resume(self) -> Self {
        self.resume(Role::Despatching).resume(Role::Receiving)
    }
}
