//! Counts, kinds and fields within their values and just outside them.

use std::ops::RangeInclusive;

use crate::writer::Writer;

use super::random::Random;
use super::Sample;

const STATION: RangeInclusive<u16> = 0..=1;
const LINE: RangeInclusive<u16> = 0..=1;
const CODE: RangeInclusive<u16> = 1..=8;
const TURN: RangeInclusive<u16> = 0..=2;
const CONSENT: RangeInclusive<u16> = 0..=1;
const POSITION: RangeInclusive<u16> = 0..=1;
const AXLES: RangeInclusive<u16> = 1..=250;
const PLACE: RangeInclusive<u16> = 0..=1;
const TRACK: RangeInclusive<u16> = 0..=6;

/// The values of each kind's fields, stated here a second time: these numbers
/// go to the sheet without passing through the typed events.
const KINDS: [&[RangeInclusive<u16>]; 15] = [
    &[STATION],
    &[STATION],
    &[LINE, STATION, CODE, TURN],
    &[STATION, CONSENT, TURN],
    &[STATION],
    &[LINE, POSITION],
    &[LINE, POSITION],
    &[LINE, AXLES],
    &[LINE, AXLES],
    &[LINE],
    &[LINE, PLACE],
    &[LINE],
    &[LINE, STATION],
    &[LINE, STATION],
    &[LINE, TRACK],
];

/// Values at or near the end of some range, or where a number grows a byte.
const EDGES: [u16; 18] =
    [0, 1, 2, 3, 6, 7, 8, 9, 127, 128, 249, 250, 251, 255, 256, 16_383, 16_384, 65_535];

pub fn samples() -> Vec<Sample> {
    let fields = (0..).zip(KINDS).flat_map(|(kind, ranges)| field_edges(kind, ranges));
    let all_bad = (0..).zip(KINDS).flat_map(|(kind, ranges)| several_bad(kind, ranges));
    counts().into_iter().chain(kinds()).chain(fields).chain(all_bad).collect()
}

fn counts() -> Vec<Sample> {
    EDGES
        .into_iter()
        .chain(10..=20)
        .flat_map(|count| {
            let alone = Writer::new(count);
            let with_event = alone.clone().numbers(&[0, 0, 1]);
            [alone, with_event].map(|writer| Sample::new("count", writer.into_bytes()))
        })
        .collect()
}

fn kinds() -> Vec<Sample> {
    EDGES
        .into_iter()
        .chain(10..=20)
        .flat_map(|kind| {
            let alone = Writer::new(8).numbers(&[kind]);
            let with_rest = alone.clone().numbers(&[7, 1, 1, 1, 1, 1]);
            [alone, with_rest].map(|writer| Sample::new("kind", writer.into_bytes()))
        })
        .collect()
}

/// Each field in turn at each edge, with the sheet ending there and going on.
fn field_edges(kind: u16, ranges: &[RangeInclusive<u16>]) -> Vec<Sample> {
    let mut samples = Vec::new();
    for (place, _) in ranges.iter().enumerate() {
        let before: Vec<u16> = ranges[..place].iter().map(|range| *range.start()).collect();
        let after: Vec<u16> = ranges[place + 1..].iter().map(|range| *range.end()).collect();
        for value in EDGES {
            let ending = Writer::new(1).numbers(&[kind, 0]).numbers(&before).numbers(&[value]);
            let going_on = ending.clone().numbers(&after).numbers(&[kind]);
            samples.extend([ending, going_on].map(|w| Sample::new("field", w.into_bytes())));
        }
    }
    samples
}

/// Events in which more than one thing is wrong.
fn several_bad(kind: u16, ranges: &[RangeInclusive<u16>]) -> Vec<Sample> {
    let bad: Vec<u16> = ranges.iter().map(|range| range.end() + 1).collect();
    let bad_fields = Writer::new(1).numbers(&[kind, 9]).numbers(&bad);
    let bad_section = Writer::new(1).numbers(&[kind]).raw(&[128]).numbers(&bad);
    let bad_kind = Writer::new(1).numbers(&[kind + 15]).raw(&[128]).numbers(&bad);
    let bad_then_broken = Writer::new(1).numbers(&[kind, 0, bad[0]]).raw(&[128, 255, 255, 255]);
    [bad_fields, bad_section, bad_kind, bad_then_broken]
        .map(|writer| Sample::new("several things wrong", writer.into_bytes()))
        .into()
}

/// The numbers of a random event; once in so many a field is just outside.
pub fn nearly_sound(one_bad_in: usize, random: &mut Random) -> Vec<u16> {
    let kind = random.within(0..=14);
    let largest_section = random.pick(&EDGES);
    let mut numbers = vec![kind, random.within(0..=largest_section)];
    for range in KINDS[usize::from(kind)] {
        let bad = random.once_in(one_bad_in);
        numbers.push(if bad { range.end() + 1 } else { random.within(range.clone()) });
    }
    numbers
}
