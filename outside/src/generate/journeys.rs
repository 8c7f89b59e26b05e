//! What is done on a line from beginning to end, and the same with something
//! else coming in between at every place.

use crate::bench::Role::{Despatching, Receiving};
use crate::event::Event;
use crate::field::Position::{Normal, Reversed};
use crate::field::{Code, Line, Place, Turn};
use crate::script::Script;
use crate::writer;

use super::catalogue::Catalogue;
use super::refusals::refused_after;
use super::Sample;

type Part = fn(Script) -> Script;

pub const SECTION: u16 = 1;

pub fn samples() -> Vec<Sample> {
    let catalogue = Catalogue::new();
    let mut samples: Vec<_> = JOURNEYS.iter().chain(LONG_JOURNEYS).map(undisturbed).collect();
    for (first, journey) in JOURNEYS.iter().enumerate() {
        for (second, disturbance) in DISTURBANCES.iter().enumerate() {
            let line = [Line::Up, Line::Down][(first + second) % 2];
            samples.extend(disturbed(&catalogue, journey, disturbance, line));
        }
    }
    samples
}

/// The journey on both lines at once, event by event.
fn undisturbed(journey: &Part) -> Sample {
    let [up, down] = [Line::Up, Line::Down].map(|line| events(journey, line));
    let both: Vec<_> = up.into_iter().zip(down).flat_map(|(up, down)| [up, down]).collect();
    Sample::new("journeys: both lines", writer::sheet(2, &both))
}

/// The journey on one line, with the disturbance at each place in turn. What
/// is then refused is tried before the journey goes on.
fn disturbed(catalogue: &Catalogue, journey: &Part, disturbance: &Part, line: Line) -> Vec<Sample> {
    let (journey, disturbance) = (events(journey, line), events(disturbance, line));
    (0..=journey.len())
        .map(|place| {
            let before = [&journey[..place], &disturbance].concat();
            let refused = refused_after(catalogue, &before, SECTION);
            let events = [&before, &refused, &journey[place..]].concat();
            Sample::new("journeys: disturbed", writer::sheet(2, &events))
        })
        .collect()
}

/// Every journey as it should be, on one line or the other.
pub fn whole() -> Vec<Vec<Event>> {
    let lines = [Line::Up, Line::Down].into_iter().cycle();
    JOURNEYS.iter().zip(lines).map(|(journey, line)| events(journey, line)).collect()
}

fn events(part: &Part, line: Line) -> Vec<Event> {
    part(Script::new(SECTION, line)).into_events()
}

const JOURNEYS: &[Part] = &[
    |line| line.line_clear().train_departs(30).train_arrives(30).train_out(),
    |line| line.line_clear().cancel(Turn::Left),
    |line| {
        line.trolley_given()
            .trolley_starts()
            .ring(Despatching, Code::TrainEntering, Turn::None)
            .consent(Receiving, Turn::None)
            .home_control(Reversed)
            .trolley_ends(Place::Arrived)
            .home_control(Normal)
            .train_out()
    },
    |line| line.trolley_given().trolley_starts().trolley_ends(Place::Returned).cancel(Turn::Right),
    |line| line.trolley_given().cancel(Turn::Right),
    |line| line.block_forward().forward_removed(),
    |line| line.block_back().back_removed(),
];

/// Journeys in which the counting goes far.
const LONG_JOURNEYS: &[Part] = &[
    |line| (0..9).fold(line, |line, _| line.then(heavy_train)),
    |line| (0..5).fold(line, |line, _| line.enters(250)).then(cleared_and_resumed),
    |line| (0..4).fold(line, |line, _| line.enters(250).roll(0).roll(1)).enters(1).leave(250),
    |line| {
        (0..7).fold(line.then(heavy_train).enters(250), |line, track| line.roll(track).leave(30))
    },
];

/// So many axles that after a few trains an axle counter has gone round.
fn heavy_train(line: Script) -> Script {
    line.line_clear()
        .train_departs(250)
        .roll(0)
        .home_control(Reversed)
        .leave(1)
        .roll(1)
        .leave(249)
        .home_control(Normal)
        .train_out()
}

fn cleared_and_resumed(line: Script) -> Script {
    line.both_reset().both_resume()
}

const DISTURBANCES: &[Part] = &[
    |line| line.enters(7),
    |line| line.enters(7).leave(7).both_resume(),
    |line| line.leave(3),
    |line| line.leave(3).then(cleared_and_resumed),
    |line| other(line, |line| line.leave(3)),
    |line| other(line, |line| line.leave(3).then(cleared_and_resumed)).both_resume(),
    |line| other(line, |line| line.enters(3)),
    |line| line.detector_fails(),
    |line| line.detector_fails().both_reset(),
    |line| line.detector_fails().reset(Receiving).reset(Receiving),
    |line| line.stop_control(Reversed),
    |line| line.stop_control(Reversed).enters(12),
    |line| line.stop_control(Reversed).detector_fails().both_reset(),
    |line| line.home_control(Reversed),
    |line| line.stop_control(Normal).home_control(Normal),
    |line| line.trolley_starts().trolley_ends(Place::Arrived),
    |line| line.given_in_error(Receiving),
    |line| line.withhold(Receiving),
    |line| line.withhold(Despatching),
    |line| line.consent(Receiving, Turn::Right),
    |line| line.consent(Despatching, Turn::Left),
    |line| line.ring(Receiving, Code::TrainOut, Turn::Right),
    |line| line.detector_fails().both_reset().ring(Receiving, Code::TrainOut, Turn::Right),
    |line| line.ring(Despatching, Code::CancelLast, Turn::None),
    |line| line.resume(Receiving).enters(1).resume(Receiving).leave(1).resume(Despatching),
];

/// Does something on the other line of the section.
fn other(line: Script, part: Part) -> Script {
    line.other_line().then(part).other_line()
}
