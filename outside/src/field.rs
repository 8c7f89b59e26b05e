//! The kinds of event and the values of their fields, with their numbers in a
//! sheet and their words in a listing.

use std::fmt;

/// A value that a sheet holds as one number.
pub trait Field: Copy {
    /// The value with this number, if there is one.
    fn from_number(number: u16) -> Option<Self>;

    fn number(self) -> u16;

    /// All values, in the order of their numbers.
    fn every() -> impl Iterator<Item = Self> {
        (0..=u16::from(u8::MAX)).filter_map(Self::from_number)
    }
}

/// Defines a field with a few named values: number, then printed word.
macro_rules! choice {
    ($(#[$about:meta])* $name:ident { $($value:ident = $number:literal $word:literal,)+ }) => {
        $(#[$about])*
        #[derive(Clone, Copy, Debug, PartialEq, Eq)]
        pub enum $name { $($value = $number,)+ }

        impl Field for $name {
            fn from_number(number: u16) -> Option<Self> {
                match number {
                    $($number => Some(Self::$value),)+
                    _ => None,
                }
            }

            fn number(self) -> u16 {
                self as u16
            }

            fn every() -> impl Iterator<Item = Self> {
                [$(Self::$value,)+].into_iter()
            }
        }

        impl fmt::Display for $name {
            fn fmt(&self, f: &mut fmt::Formatter<'_>) -> fmt::Result {
                f.write_str(match self {
                    $(Self::$value => $word,)+
                })
            }
        }
    };
}

/// Defines a field that is a quantity within bounds.
macro_rules! quantity {
    ($(#[$about:meta])* $name:ident $range:expr) => {
        $(#[$about])*
        #[derive(Clone, Copy, Debug, PartialEq, Eq)]
        pub struct $name(u16);

        impl Field for $name {
            fn from_number(number: u16) -> Option<Self> {
                ($range).contains(&number).then_some(Self(number))
            }

            fn number(self) -> u16 {
                self.0
            }
        }

        impl fmt::Display for $name {
            fn fmt(&self, f: &mut fmt::Formatter<'_>) -> fmt::Result {
                self.0.fmt(f)
            }
        }
    };
}

choice! {
    /// The kind of an event, which says what fields it has.
    Kind {
        Call = 0 "call",
        Answer = 1 "answer",
        Send = 2 "send",
        Acknowledge = 3 "acknowledge",
        Error = 4 "error",
        StopControl = 5 "stop-control",
        HomeControl = 6 "home-control",
        Enters = 7 "enters",
        Leave = 8 "leave",
        TrolleyStarts = 9 "trolley-starts",
        TrolleyEnds = 10 "trolley-ends",
        Fails = 11 "fails",
        Reset = 12 "reset",
        Resume = 13 "resume",
        Roll = 14 "roll",
    }
}

choice! {
    /// One end of a section.
    Station {
        Zero = 0 "0",
        One = 1 "1",
    }
}

choice! {
    /// One of the two lines of a section, told by its direction.
    Line {
        Up = 0 "up",
        Down = 1 "down",
    }
}

choice! {
    /// A bell code.
    Code {
        IsLineClear = 1 "is-line-clear",
        TrainEntering = 2 "train-entering",
        TrainOut = 3 "train-out",
        CancelLast = 4 "cancel-last",
        ObstructionRemoved = 5 "obstruction-removed",
        Trolley = 6 "trolley",
        BlockForward = 7 "block-forward",
        BlockBack = 8 "block-back",
    }
}

choice! {
    /// How the handle of the instrument is turned with a message.
    Turn {
        None = 0 "none",
        Left = 1 "left",
        Right = 2 "right",
    }
}

choice! {
    /// Whether the acknowledging station agrees.
    Consent {
        Withheld = 0 "0",
        Given = 1 "1",
    }
}

choice! {
    /// Where the control of a signal stands.
    Position {
        Normal = 0 "normal",
        Reversed = 1 "reversed",
    }
}

choice! {
    /// Where a trolley came off the line.
    Place {
        Arrived = 0 "arrived",
        Returned = 1 "returned",
    }
}

quantity! {
    /// The axles of one event.
    Axles 1..=250
}

quantity! {
    /// A track from which axles roll on.
    Track 0..=6
}
