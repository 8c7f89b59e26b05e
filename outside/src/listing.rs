//! The listing of a sheet: what the program `sheet` has to print for it.

use crate::fault::Fault;
use crate::reader::{Placed, Reader};

/// The whole listing of a sheet, sound or not.
pub fn of_sheet(sheet: &[u8]) -> String {
    match Reader::open(sheet) {
        Ok(reader) => of_events(reader.sections(), reader),
        Err(fault) => format!("{fault}\n"),
    }
}

/// The listing of events that come from a reader, or from anywhere else; a
/// fault can only be the last of them.
pub fn of_events(sections: u16, events: impl IntoIterator<Item = Result<Placed, Fault>>) -> String {
    let mut lines = vec![format!("sections {sections}")];
    let mut last = None;
    for (index, item) in events.into_iter().enumerate() {
        match item {
            Ok(Placed { offset, event }) => lines.push(format!("{index} at {offset}: {event}")),
            Err(fault) => last = Some(fault.to_string()),
        }
    }
    let count = lines.len() - 1;
    lines.push(last.unwrap_or(format!("end {count}")));
    lines.join("\n") + "\n"
}
