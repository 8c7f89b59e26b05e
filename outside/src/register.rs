//! The register of a sheet: what the program `bench` has to print for it.

use std::fmt::Write;

use crate::bench::{LineView, Needle, Signal, View};
use crate::detector::{AxleCounter, Detector, Reading, TrackRow};
use crate::field::Line;
use crate::reader::Reader;
use crate::run::Run;

/// The register of a sheet, over some kind of detector.
pub type Register = fn(&[u8]) -> String;

/// For each kind of detector, the arguments by which a program is asked for it.
pub const BY_DETECTOR: [(&[&str], Register); 2] =
    [(&[], of_sheet::<AxleCounter>), (&["track-row"], of_sheet::<TrackRow>)];

/// The whole register of a sheet, sound or not, over detectors of kind `D`.
pub fn of_sheet<D: Detector>(sheet: &[u8]) -> String {
    let reader = match Reader::open(sheet) {
        Ok(reader) => reader,
        Err(fault) => return format!("{fault}\n"),
    };
    let mut text = format!("sections {}\n", reader.sections());
    let mut run = Run::<D>::new(reader.sections());
    let mut count = 0;
    for item in reader {
        let event = match item {
            Ok(placed) => placed.event,
            Err(fault) => return text + &format!("{fault}\n"),
        };
        let step = run.step(event);
        add_line(&mut text, count, step.answer.number(), step.after);
        count += 1;
    }
    text + &format!("end {count}\n")
}

fn add_line(text: &mut String, index: usize, answer: u8, after: Option<View>) {
    write!(text, "{index} {answer} ").expect("a string takes any text");
    match after {
        Some(view) => {
            text.extend(marks(view.line(Line::Up)));
            text.push(' ');
            text.extend(marks(view.line(Line::Down)));
        }
        None => text.push_str("---- ----"),
    }
    text.push('\n');
}

/// What a line shows: needle, stop signal, home signal, detector.
fn marks(line: &LineView) -> [char; 4] {
    let needle = match line.record.needle {
        Needle::Closed => 'C',
        Needle::Clear => 'G',
        Needle::TrainOnLine => 'T',
    };
    let detector = match line.reading {
        Reading::Clear => 'c',
        Reading::Occupied => 'o',
        Reading::Failed => 'x',
    };
    [needle, signal(line.record.stop_signal), signal(line.record.home_signal), detector]
}

fn signal(signal: Signal) -> char {
    match signal {
        Signal::On => 'n',
        Signal::Off => 'f',
    }
}
