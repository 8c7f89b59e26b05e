//! Trains up to the edge of what a detector can count, off the line again to
//! the last axle or beyond it, and round again.

use crate::field::Line;
use crate::script::Script;
use crate::writer;

use super::random::Random;
use super::Sample;

const TOTALS: [u16; 8] = [1, 250, 998, 999, 1_000, 1_001, 1_002, 1_250];

pub fn samples(random: &mut Random) -> Vec<Sample> {
    let mut samples = Vec::new();
    for total_in in TOTALS {
        for total_out in [total_in - 1, total_in, total_in + 1] {
            for line in [Line::Up, Line::Down] {
                samples.push(sample(line, total_in, total_out, random));
            }
        }
    }
    samples
}

/// So many axles in and out, and the same once more. If the detector has not
/// failed it is not reset in between, so an axle counter may go round.
fn sample(line: Line, total_in: u16, total_out: u16, random: &mut Random) -> Sample {
    let mut script = Script::new(0, line);
    for _ in 0..2 {
        for axles in parts(total_in, random) {
            script = script.enters(axles).roll(random.within(0..=6));
        }
        for axles in parts(total_out, random) {
            script = script.leave(axles).roll(random.within(0..=6));
        }
        script = script.both_reset();
    }
    Sample::new("counts", writer::sheet(1, &script.into_events()))
}

/// The total in random parts, each of them as many axles as one event can have.
fn parts(total: u16, random: &mut Random) -> Vec<u16> {
    let mut parts = Vec::new();
    let mut left = total;
    while left > 0 {
        let part = random.within(1..=left.min(250));
        parts.push(part);
        left -= part;
    }
    parts
}
