//! Bell codes: who sends them, with which turns, what they need and what they
//! do. Each question has one function with an answer for every code.

use super::{End, Needle, Permit, Record, Role, Signal};
use crate::field::{Code, Position, Turn};

/// A code about a line, and which of the line's stations sent it.
#[derive(Clone, Copy, Debug, PartialEq, Eq)]
pub struct Message {
    pub code: Code,
    pub sender: Role,
}

impl Message {
    /// Either station may tell that an obstruction is removed: which of them is
    /// right shows in the permit.
    pub fn from_right_station(self) -> bool {
        match self.code {
            Code::IsLineClear
            | Code::TrainEntering
            | Code::CancelLast
            | Code::Trolley
            | Code::BlockForward => self.sender == Role::Despatching,
            Code::TrainOut | Code::BlockBack => self.sender == Role::Receiving,
            Code::ObstructionRemoved => true,
        }
    }

    pub fn sent_with(self) -> Turn {
        match (self.code, self.sender) {
            (Code::TrainOut, _) | (Code::ObstructionRemoved, Role::Receiving) => Turn::Right,
            _ => Turn::None,
        }
    }

    /// The turn that goes with a consent, while the line has this permit.
    pub fn acknowledged_with(self, permit: Permit) -> Turn {
        match (self.code, permit) {
            _ if self.works_when_sent() => Turn::None,
            (Code::TrainEntering, Permit::Trolley) | (Code::BlockBack, _) => Turn::None,
            (Code::CancelLast, Permit::Trolley) => Turn::Right,
            (Code::TrainEntering | Code::CancelLast, _) => Turn::Left,
            (Code::Trolley | Code::BlockForward, _) => Turn::Left,
            (Code::IsLineClear | Code::ObstructionRemoved | Code::TrainOut, _) => Turn::Right,
        }
    }

    pub fn may_be_withheld(self) -> bool {
        match self.code {
            Code::IsLineClear
            | Code::CancelLast
            | Code::Trolley
            | Code::BlockForward
            | Code::BlockBack => true,
            Code::TrainEntering | Code::TrainOut | Code::ObstructionRemoved => false,
        }
    }

    /// The receiving station gives up the line by its own turn, so nothing is
    /// left for the acknowledgement.
    pub fn works_when_sent(self) -> bool {
        match self.code {
            Code::TrainOut => true,
            Code::ObstructionRemoved => self.sender == Role::Receiving,
            _ => false,
        }
    }

    /// Whether needle, permit, use and end are as needed; whether a train or a
    /// trolley has arrived is asked for train out apart.
    pub fn permit_as_needed(self, record: &Record) -> bool {
        let &Record { needle, permit, used, end, .. } = record;
        match (self.code, permit) {
            (
                Code::IsLineClear | Code::Trolley | Code::BlockForward | Code::BlockBack,
                Permit::None,
            ) => true,
            (Code::TrainEntering, Permit::Train) => needle == Needle::Clear && used,
            (Code::TrainEntering, Permit::Trolley) => used,
            (Code::TrainOut, Permit::Train | Permit::Trolley) => needle == Needle::TrainOnLine,
            (Code::CancelLast, Permit::Train) => needle == Needle::Clear && !used,
            (Code::CancelLast, Permit::Trolley) => !used || end == End::Returned,
            (Code::ObstructionRemoved, Permit::Forward) => self.sender == Role::Despatching,
            (Code::ObstructionRemoved, Permit::Back) => self.sender == Role::Receiving,
            _ => false,
        }
    }

    pub fn controls_as_needed(self, record: &Record) -> bool {
        match self.code {
            Code::IsLineClear | Code::Trolley | Code::BlockForward | Code::BlockBack => {
                record.controls_normal()
            }
            Code::TrainEntering => record.stop_control == Position::Normal,
            Code::TrainOut => record.home_control == Position::Normal,
            Code::CancelLast => record.stop_signal == Signal::On && record.controls_normal(),
            Code::ObstructionRemoved => true,
        }
    }

    pub fn needs_clear_line(self) -> bool {
        !matches!(self.code, Code::TrainEntering | Code::CancelLast)
    }

    pub fn needs_arrival(self) -> bool {
        self.code == Code::TrainOut
    }

    /// What the message does to the line, once.
    pub fn take_effect(self, record: &mut Record) {
        match self.code {
            Code::IsLineClear => record.give(Needle::Clear, Permit::Train),
            Code::Trolley => record.give(Needle::TrainOnLine, Permit::Trolley),
            Code::BlockForward => record.give(Needle::TrainOnLine, Permit::Forward),
            Code::BlockBack => record.give(Needle::TrainOnLine, Permit::Back),
            // For a trolley the needle shows a train on line already.
            Code::TrainEntering => record.needle = Needle::TrainOnLine,
            Code::TrainOut | Code::CancelLast | Code::ObstructionRemoved => record.close(),
        }
    }
}
