//! What is kept of one line.

use crate::field::{Position, Station};

/// The needles of the line's block instruments, which always show the same.
#[derive(Clone, Copy, Debug, PartialEq, Eq)]
pub enum Needle {
    Closed,
    Clear,
    TrainOnLine,
}

/// What may be on the line.
#[derive(Clone, Copy, Debug, PartialEq, Eq)]
pub enum Permit {
    None,
    Train,
    Trolley,
    Forward,
    Back,
}

/// How the use of a permit ended.
#[derive(Clone, Copy, Debug, PartialEq, Eq)]
pub enum End {
    None,
    Arrived,
    Returned,
}

#[derive(Clone, Copy, Debug, PartialEq, Eq)]
pub enum Signal {
    On,
    Off,
}

#[derive(Clone, Copy, Debug, PartialEq, Eq)]
pub struct Record {
    pub needle: Needle,
    pub permit: Permit,
    pub used: bool,
    pub end: End,
    pub stop_signal: Signal,
    pub home_signal: Signal,
    pub stop_control: Position,
    pub home_control: Position,
    pub suspended: bool,
    pub called_for_reset: Option<Station>,
    pub called_for_resumption: Option<Station>,
}

impl Record {
    pub const FRESH: Self = Self {
        needle: Needle::Closed,
        permit: Permit::None,
        used: false,
        end: End::None,
        stop_signal: Signal::On,
        home_signal: Signal::On,
        stop_control: Position::Normal,
        home_control: Position::Normal,
        suspended: false,
        called_for_reset: None,
        called_for_resumption: None,
    };

    /// Gives a permit, which is then not used yet.
    pub fn give(&mut self, needle: Needle, permit: Permit) {
        *self = Self { needle, permit, used: false, end: End::None, ..*self };
    }

    /// Ends the permit, whatever it was.
    pub fn close(&mut self) {
        self.give(Needle::Closed, Permit::None);
    }

    pub fn suspend(&mut self) {
        self.suspended = true;
        self.stop_signal = Signal::On;
        self.home_signal = Signal::On;
    }

    pub fn controls_normal(&self) -> bool {
        self.stop_control == Position::Normal && self.home_control == Position::Normal
    }

    /// A line clear that no train has used yet.
    pub fn unused_line_clear(&self) -> bool {
        self.needle == Needle::Clear && self.permit == Permit::Train && !self.used
    }

    pub fn train_or_trolley(&self) -> bool {
        matches!(self.permit, Permit::Train | Permit::Trolley)
    }
}
