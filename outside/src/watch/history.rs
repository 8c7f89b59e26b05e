//! What events and their answers were to the lines of a section.

use crate::bench::{place, Answer, Role};
use crate::event::Action;
use crate::field::{Code, Consent, Field, Line, Position};

#[derive(Clone, Copy)]
pub enum Happening {
    /// A code was sent, and the sending accepted.
    Sent {
        code: Code,
        sender: Role,
    },
    /// Consent to a code, accepted.
    Consented {
        code: Code,
        sender: Role,
    },
    StopControl(Position),
    /// A train went onto the line past its stop signal.
    TrainPassed {
        axles: u16,
        accepted: bool,
    },
    AxlesLeft {
        axles: u16,
        accepted: bool,
    },
    /// Axles left the other line of the section unexpectedly.
    SuspendedWithOther,
    TrolleyStarted,
    TrolleyEnded,
    /// Both stations have called for a reset.
    ResetCompleted,
    /// Both stations have called for a resumption.
    ResumptionCompleted,
}

/// What happened, and on which line.
pub struct Told {
    line: Line,
    happening: Happening,
}

impl Told {
    /// What it was to this line.
    pub fn to(&self, line: Line) -> Option<Happening> {
        match self.happening {
            happening if line == self.line => Some(happening),
            Happening::AxlesLeft { accepted: false, .. } => Some(Happening::SuspendedWithOther),
            _ => None,
        }
    }
}

/// What has to be remembered of a section to tell what an event was.
#[derive(Clone, Default)]
pub struct History {
    last_sent: Option<(Line, Code, Role)>,
    reset_calls: [usize; 2],
    resumption_calls: [usize; 2],
}

impl History {
    /// Tells of events that matter to some law.
    pub fn tell(&mut self, action: Action, answer: Answer) -> Option<Told> {
        if answer.is_refusal() {
            return None;
        }
        let accepted = answer == Answer::Accepted;
        let (line, happening) = match action {
            Action::Send { line, station, code, .. } => {
                let sender = Role::of(station, line);
                self.last_sent = Some((line, code, sender));
                (line, Happening::Sent { code, sender })
            }
            Action::Acknowledge { consent: Consent::Given, .. } => {
                let (line, code, sender) = self.last_sent?;
                (line, Happening::Consented { code, sender })
            }
            Action::StopControl { line, position } => (line, Happening::StopControl(position)),
            Action::Enters { line, axles } => {
                (line, Happening::TrainPassed { axles: axles.number(), accepted })
            }
            Action::Leave { line, axles } => {
                (line, Happening::AxlesLeft { axles: axles.number(), accepted })
            }
            Action::TrolleyStarts { line } => (line, Happening::TrolleyStarted),
            Action::TrolleyEnds { line, .. } => (line, Happening::TrolleyEnded),
            Action::Reset { line, .. } => {
                (completes(&mut self.reset_calls, line)?, Happening::ResetCompleted)
            }
            Action::Resume { line, .. } => {
                (completes(&mut self.resumption_calls, line)?, Happening::ResumptionCompleted)
            }
            _ => return None,
        };
        Some(Told { line, happening })
    }
}

/// Counts an accepted call on the line. Every second one completes the first.
fn completes(calls: &mut [usize; 2], line: Line) -> Option<Line> {
    calls[place(line)] += 1;
    (calls[place(line)] % 2 == 0).then_some(line)
}
