//! A section: its bell, and a record and a detector for each of its two lines.

use super::view::{place, LineView, View};
use super::{Answer, Bell, End, Message, Needle, Permit, Record, Refusal, Role, Signal};
use crate::detector::{Detector, Reading};
use crate::event::Action;
use crate::field::{Axles, Code, Consent, Field, Line, Place, Position, Station, Turn};

#[derive(Clone)]
pub struct Section<D> {
    bell: Bell,
    records: [Record; 2],
    detectors: [D; 2],
}

type Work = Result<Answer, Refusal>;

impl<D: Detector> Section<D> {
    pub fn fresh() -> Self {
        Self { bell: Bell::Idle, records: [Record::FRESH; 2], detectors: [D::fresh(), D::fresh()] }
    }

    pub fn view(&self) -> View {
        let line = |line| LineView {
            record: *self.record(line),
            reading: self.reading(line),
            axles: self.detectors[place(line)].axles(),
        };
        View { bell: self.bell, lines: [line(Line::Up), line(Line::Down)] }
    }

    /// Works the action and answers it. Whatever it was, a detector that is not
    /// clear puts the stop signal on.
    pub fn answer(&mut self, action: Action) -> Answer {
        let answer = self.work(action).unwrap_or_else(Answer::Refused);
        for line in Line::every() {
            if self.reading(line) != Reading::Clear {
                self.record_mut(line).stop_signal = Signal::On;
            }
        }
        answer
    }

    /// Each way to be refused is looked for before anything is changed.
    fn work(&mut self, action: Action) -> Work {
        match action {
            Action::Call { station } => self.bell.call(station).map(|()| Answer::Accepted),
            Action::Answer { station } => self.bell.answer(station).map(|()| Answer::Accepted),
            Action::Send { line, station, code, turn } => self.send(line, station, code, turn),
            Action::Acknowledge { station, consent, turn } => {
                self.acknowledge(station, consent, turn)
            }
            Action::Error { .. } => self.bell.error().map(|()| Answer::Accepted),
            Action::StopControl { line, position } => self.stop_control(line, position),
            Action::HomeControl { line, position } => self.home_control(line, position),
            Action::Enters { line, axles } => Ok(self.enters(line, axles)),
            Action::Leave { line, axles } => Ok(self.leave(line, axles)),
            Action::TrolleyStarts { line } => self.trolley_starts(line),
            Action::TrolleyEnds { line, place } => self.trolley_ends(line, place),
            Action::Fails { line } => {
                self.detector_mut(line).fail();
                Ok(Answer::Accepted)
            }
            Action::Reset { line, station } => self.reset(line, station),
            Action::Resume { line, station } => self.resume(line, station),
            Action::Roll { line, track } => {
                self.detector_mut(line).roll(track);
                Ok(Answer::Accepted)
            }
        }
    }

    fn send(&mut self, line: Line, station: Station, code: Code, turn: Turn) -> Work {
        Refusal::Bell.unless(self.bell.ready_for(station))?;
        let message = Message { code, sender: Role::of(station, line) };
        Refusal::WrongStation.unless(message.from_right_station())?;
        self.check_needs(message, line, turn == message.sent_with())?;
        if message.works_when_sent() {
            message.take_effect(self.record_mut(line));
        }
        self.bell = Bell::Pending { caller: station, line, code };
        Ok(Answer::Accepted)
    }

    fn acknowledge(&mut self, station: Station, consent: Consent, turn: Turn) -> Work {
        let (line, message) = self.bell.pending_for(station).ok_or(Refusal::Bell)?;
        let right_turn = turn == message.acknowledged_with(self.record(line).permit);
        if consent == Consent::Withheld {
            Refusal::Turn.unless(message.may_be_withheld() && turn == Turn::None)?;
        } else if message.works_when_sent() {
            Refusal::Turn.unless(right_turn)?;
        } else {
            self.check_needs(message, line, right_turn)?;
            message.take_effect(self.record_mut(line));
        }
        self.bell = Bell::Idle;
        Ok(Answer::Accepted)
    }

    /// What a message needs of its line, when it is sent and again when it is
    /// acknowledged.
    fn check_needs(&self, message: Message, line: Line, right_turn: bool) -> Result<(), Refusal> {
        let record = self.record(line);
        let clear = self.reading(line) == Reading::Clear;
        Refusal::Suspended.unless(!record.suspended)?;
        Refusal::Permit.unless(message.permit_as_needed(record))?;
        Refusal::Turn.unless(right_turn)?;
        Refusal::Control.unless(message.controls_as_needed(record))?;
        Refusal::NotClear.unless(clear || !message.needs_clear_line())?;
        Refusal::NotArrived.unless(record.end == End::Arrived || !message.needs_arrival())
    }

    fn stop_control(&mut self, line: Line, position: Position) -> Work {
        let clear = self.reading(line) == Reading::Clear;
        let record = self.record_mut(line);
        if position == Position::Reversed {
            Refusal::Suspended.unless(!record.suspended)?;
            Refusal::Permit.unless(record.unused_line_clear())?;
            Refusal::Control.unless(record.stop_control == Position::Normal)?;
            Refusal::NotClear.unless(clear)?;
        }
        record.stop_control = position;
        record.stop_signal = shown(position);
        Ok(Answer::Accepted)
    }

    fn home_control(&mut self, line: Line, position: Position) -> Work {
        let record = self.record_mut(line);
        if position == Position::Reversed {
            let expected = record.needle == Needle::TrainOnLine
                && record.train_or_trolley()
                && record.end == End::None;
            Refusal::Suspended.unless(!record.suspended)?;
            Refusal::Permit.unless(expected)?;
            Refusal::Control.unless(record.home_control == Position::Normal)?;
        }
        record.home_control = position;
        record.home_signal = shown(position);
        Ok(Answer::Accepted)
    }

    fn enters(&mut self, line: Line, axles: Axles) -> Answer {
        self.detector_mut(line).count_in(axles);
        let record = self.record_mut(line);
        if record.stop_signal == Signal::On {
            record.suspend();
            return Answer::PassedAtOn;
        }
        record.used = true;
        record.stop_signal = Signal::On;
        Answer::Accepted
    }

    fn leave(&mut self, line: Line, axles: Axles) -> Answer {
        self.detector_mut(line).count_out(axles);
        let record = self.record_mut(line);
        record.home_signal = Signal::On;
        if record.permit == Permit::Train && record.used {
            record.end = End::Arrived;
            return Answer::Accepted;
        }
        self.records.iter_mut().for_each(Record::suspend);
        Answer::LeftUnexpectedly
    }

    fn trolley_starts(&mut self, line: Line) -> Work {
        let record = self.record_mut(line);
        Refusal::Suspended.unless(!record.suspended)?;
        Refusal::Permit.unless(record.permit == Permit::Trolley && !record.used)?;
        record.used = true;
        Ok(Answer::Accepted)
    }

    fn trolley_ends(&mut self, line: Line, place: Place) -> Work {
        let record = self.record_mut(line);
        let on_its_way = record.permit == Permit::Trolley && record.used && record.end == End::None;
        Refusal::Permit.unless(on_its_way)?;
        record.end = match place {
            Place::Arrived => End::Arrived,
            Place::Returned => End::Returned,
        };
        Ok(Answer::Accepted)
    }

    /// The first station's call is kept; the other's resets the detector.
    fn reset(&mut self, line: Line, station: Station) -> Work {
        Refusal::Call.unless(self.reading(line) == Reading::Failed)?;
        let called = self.record(line).called_for_reset;
        Refusal::Call.unless(called != Some(station))?;
        if called.is_some() {
            self.detector_mut(line).reset();
        }
        self.record_mut(line).called_for_reset = kept(called, station);
        Ok(Answer::Accepted)
    }

    /// The first station's call is kept; the other's ends the suspension and
    /// whatever permit the line had.
    fn resume(&mut self, line: Line, station: Station) -> Work {
        let clear = self.reading(line) == Reading::Clear;
        let record = self.record_mut(line);
        let called = record.called_for_resumption;
        Refusal::Call.unless(record.suspended && called != Some(station))?;
        Refusal::Control.unless(record.controls_normal())?;
        Refusal::NotClear.unless(clear)?;
        if called.is_some() {
            record.close();
            record.suspended = false;
        }
        record.called_for_resumption = kept(called, station);
        Ok(Answer::Accepted)
    }

    fn reading(&self, line: Line) -> Reading {
        self.detectors[place(line)].read()
    }

    fn record(&self, line: Line) -> &Record {
        &self.records[place(line)]
    }

    fn record_mut(&mut self, line: Line) -> &mut Record {
        &mut self.records[place(line)]
    }

    fn detector_mut(&mut self, line: Line) -> &mut D {
        &mut self.detectors[place(line)]
    }
}

/// What a signal shows when its control has just been put there.
fn shown(position: Position) -> Signal {
    match position {
        Position::Normal => Signal::On,
        Position::Reversed => Signal::Off,
    }
}

/// Who has called, once this station has too: the first call of a pair is kept,
/// the second completes it.
fn kept(called: Option<Station>, station: Station) -> Option<Station> {
    match called {
        None => Some(station),
        Some(_) => None,
    }
}
