//! Reads a sheet: first its section count, then its events one by one.

use crate::event::{Action, Event};
use crate::fault::{Cause, Fault};
use crate::field::{Field, Kind};

pub const LONGEST_SHEET: usize = 65_536;

/// An event and the offset of its first byte.
#[derive(Clone, Copy, Debug, PartialEq, Eq)]
pub struct Placed {
    pub offset: usize,
    pub event: Event,
}

/// A sheet whose count has been read; it yields the events, then at most one fault.
pub struct Reader<'a> {
    sections: u16,
    cursor: Cursor<'a>,
    stopped: bool,
}

impl<'a> Reader<'a> {
    pub fn open(sheet: &'a [u8]) -> Result<Self, Fault> {
        if sheet.len() > LONGEST_SHEET {
            return Err(Fault { cause: Cause::TooLong, offset: LONGEST_SHEET });
        }
        let mut cursor = Cursor { sheet, offset: 0 };
        match cursor.number()? {
            sections @ 1..=8 => Ok(Self { sections, cursor, stopped: false }),
            _ => Err(Fault { cause: Cause::BadCount, offset: 0 }),
        }
    }

    pub fn sections(&self) -> u16 {
        self.sections
    }
}

impl Iterator for Reader<'_> {
    type Item = Result<Placed, Fault>;

    fn next(&mut self) -> Option<Self::Item> {
        if self.stopped || self.cursor.at_end() {
            return None;
        }
        let item = self.cursor.event();
        self.stopped = item.is_err();
        Some(item)
    }
}

/// A place in a sheet from which numbers are taken.
struct Cursor<'a> {
    sheet: &'a [u8],
    offset: usize,
}

impl Cursor<'_> {
    fn at_end(&self) -> bool {
        self.offset == self.sheet.len()
    }

    fn event(&mut self) -> Result<Placed, Fault> {
        let offset = self.offset;
        let kind = self.field()?;
        let section = self.number()?;
        let action = self.action(kind)?;
        Ok(Placed { offset, event: Event { section, action } })
    }

    /// The fields of an event of this kind. They are read in the order written
    /// here, which is sheet order.
    fn action(&mut self, kind: Kind) -> Result<Action, Fault> {
        Ok(match kind {
            Kind::Call => Action::Call { station: self.field()? },
            Kind::Answer => Action::Answer { station: self.field()? },
            Kind::Send => Action::Send {
                line: self.field()?,
                station: self.field()?,
                code: self.field()?,
                turn: self.field()?,
            },
            Kind::Acknowledge => Action::Acknowledge {
                station: self.field()?,
                consent: self.field()?,
                turn: self.field()?,
            },
            Kind::Error => Action::Error { station: self.field()? },
            Kind::StopControl => {
                Action::StopControl { line: self.field()?, position: self.field()? }
            }
            Kind::HomeControl => {
                Action::HomeControl { line: self.field()?, position: self.field()? }
            }
            Kind::Enters => Action::Enters { line: self.field()?, axles: self.field()? },
            Kind::Leave => Action::Leave { line: self.field()?, axles: self.field()? },
            Kind::TrolleyStarts => Action::TrolleyStarts { line: self.field()? },
            Kind::TrolleyEnds => Action::TrolleyEnds { line: self.field()?, place: self.field()? },
            Kind::Fails => Action::Fails { line: self.field()? },
            Kind::Reset => Action::Reset { line: self.field()?, station: self.field()? },
            Kind::Resume => Action::Resume { line: self.field()?, station: self.field()? },
            Kind::Roll => Action::Roll { line: self.field()?, track: self.field()? },
        })
    }

    fn field<F: Field>(&mut self) -> Result<F, Fault> {
        let offset = self.offset;
        F::from_number(self.number()?).ok_or(Fault { cause: Cause::BadValue, offset })
    }

    /// The number that begins here. Its value is kept in a wider type, so that
    /// one that is too large is seen as such.
    fn number(&mut self) -> Result<u16, Fault> {
        let first = self.offset;
        let mut value = 0_u32;
        loop {
            let offset = self.offset;
            let byte = self.byte().ok_or(Fault { cause: Cause::SheetEnds, offset: first })?;
            let goes_on = byte >= 128;
            match offset - first {
                0 if byte == 128 => return Err(Fault { cause: Cause::BadNumber, offset: first }),
                2 if goes_on => return Err(Fault { cause: Cause::BadNumber, offset: first }),
                _ => value = value * 128 + u32::from(byte % 128),
            }
            if !goes_on {
                return u16::try_from(value).map_err(|_| Fault { cause: Cause::BadNumber, offset });
            }
        }
    }

    fn byte(&mut self) -> Option<u8> {
        let byte = *self.sheet.get(self.offset)?;
        self.offset += 1;
        Some(byte)
    }
}
