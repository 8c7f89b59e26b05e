//! All that can be seen of a section, whatever kind of detector it has.

use super::{Bell, Record};
use crate::detector::Reading;
use crate::field::{Field, Line};

#[derive(Clone, Copy, Debug, PartialEq, Eq)]
pub struct View {
    pub bell: Bell,
    pub lines: [LineView; 2],
}

#[derive(Clone, Copy, Debug, PartialEq, Eq)]
pub struct LineView {
    pub record: Record,
    pub reading: Reading,
    pub axles: u16,
}

impl View {
    pub fn line(&self, line: Line) -> &LineView {
        &self.lines[place(line)]
    }
}

/// Where the things of this line are among those of both lines.
pub fn place(line: Line) -> usize {
    line.number().into()
}
