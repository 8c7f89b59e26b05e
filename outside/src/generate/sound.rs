//! Sheets with no fault. Their listings are made from the events as they are
//! written, so that the reader is checked by them and not only used.

use crate::event::{Action, Event};
use crate::listing;
use crate::writer::Writer;

use super::catalogue::{Catalogue, SECTIONS};
use super::random::Random;
use super::Sample;

pub fn samples(random: &mut Random) -> Vec<Sample> {
    let catalogue = Catalogue::new();
    [every_action(&catalogue), every_section(&catalogue), single(&catalogue), mixed(random)]
        .concat()
}

/// For each section count and kind, all actions of the kind in one sheet.
fn every_action(catalogue: &Catalogue) -> Vec<Sample> {
    (1..=8)
        .flat_map(|sections| {
            catalogue.by_kind().map(move |actions| {
                let places = SECTIONS.into_iter().cycle().skip(sections.into());
                sound("sound: every action", sections, &in_sections(places, actions))
            })
        })
        .collect()
}

fn in_sections(sections: impl Iterator<Item = u16>, actions: &[Action]) -> Vec<Event> {
    sections.zip(actions).map(|(section, &action)| Event { section, action }).collect()
}

/// One event of each kind in each section.
fn every_section(catalogue: &Catalogue) -> Vec<Sample> {
    SECTIONS
        .into_iter()
        .flat_map(|section| {
            catalogue.by_kind().map(move |actions| {
                let action = actions[usize::from(section) % actions.len()];
                sound("sound: every section", 1, &[Event { section, action }])
            })
        })
        .collect()
}

/// Every action alone in a sheet, but few of the many numbers of axles.
fn single(catalogue: &Catalogue) -> Vec<Sample> {
    const MANY: usize = 100;
    catalogue
        .by_kind()
        .flat_map(|actions| {
            let step = if actions.len() > MANY { 31 } else { 1 };
            actions.iter().step_by(step).chain(actions.last())
        })
        .map(|&action| sound("sound: one event", 8, &[Event { section: 0, action }]))
        .collect()
}

fn mixed(random: &mut Random) -> Vec<Sample> {
    let catalogue = Catalogue::new();
    (0..150)
        .map(|round| {
            let sections = 1 + round % 8;
            let count = random.below(80);
            sound("sound: mixed events", sections, &catalogue.events(count, random))
        })
        .collect()
}

/// The sheet with these events, and its listing from the places they got.
pub fn sound(family: &'static str, sections: u16, events: &[Event]) -> Sample {
    let mut writer = Writer::new(sections);
    let placed: Vec<_> = events.iter().map(|&event| writer.event(event)).collect();
    let listing = listing::of_events(sections, placed.into_iter().map(Ok));
    Sample { family, sheet: writer.into_bytes(), expected: Some(listing) }
}
