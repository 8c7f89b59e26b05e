//! Writes sheets, from typed events or number by number.

use crate::event::{Action, Event};
use crate::field::Field;
use crate::reader::Placed;

/// A sheet being written.
#[derive(Clone, Debug, Default)]
pub struct Writer {
    bytes: Vec<u8>,
}

impl Writer {
    /// A sheet with this section count, sound or not, and no event yet.
    pub fn new(sections: u16) -> Self {
        Self::default().numbers(&[sections])
    }

    /// Adds the event and tells where it stands.
    pub fn event(&mut self, event: Event) -> Placed {
        let offset = self.bytes.len();
        self.push(event.action.kind().number());
        self.push(event.section);
        for field in fields(event.action) {
            self.push(field);
        }
        Placed { offset, event }
    }

    pub fn numbers(mut self, numbers: &[u16]) -> Self {
        for &number in numbers {
            self.push(number);
        }
        self
    }

    /// Adds bytes as they are, whether or not they make numbers.
    pub fn raw(mut self, bytes: &[u8]) -> Self {
        self.bytes.extend_from_slice(bytes);
        self
    }

    pub fn len(&self) -> usize {
        self.bytes.len()
    }

    pub fn into_bytes(self) -> Vec<u8> {
        self.bytes
    }

    fn push(&mut self, number: u16) {
        let group = |shift: u16| (number >> shift & 127) as u8;
        if number >= 1 << 14 {
            self.bytes.push(128 + group(14));
        }
        if number >= 1 << 7 {
            self.bytes.push(128 + group(7));
        }
        self.bytes.push(group(0));
    }
}

/// The sheet with this section count and these events.
pub fn sheet(sections: u16, events: &[Event]) -> Vec<u8> {
    let mut writer = Writer::new(sections);
    for &event in events {
        writer.event(event);
    }
    writer.into_bytes()
}

fn fields(action: Action) -> Vec<u16> {
    match action {
        Action::Call { station } | Action::Answer { station } | Action::Error { station } => {
            vec![station.number()]
        }
        Action::Send { line, station, code, turn } => {
            vec![line.number(), station.number(), code.number(), turn.number()]
        }
        Action::Acknowledge { station, consent, turn } => {
            vec![station.number(), consent.number(), turn.number()]
        }
        Action::StopControl { line, position } | Action::HomeControl { line, position } => {
            vec![line.number(), position.number()]
        }
        Action::Enters { line, axles } | Action::Leave { line, axles } => {
            vec![line.number(), axles.number()]
        }
        Action::TrolleyStarts { line } | Action::Fails { line } => vec![line.number()],
        Action::TrolleyEnds { line, place } => vec![line.number(), place.number()],
        Action::Reset { line, station } | Action::Resume { line, station } => {
            vec![line.number(), station.number()]
        }
        Action::Roll { line, track } => vec![line.number(), track.number()],
    }
}
