//! Sheets that are walks through what a bench can do, whole and damaged, short
//! and as long as may be.

use crate::writer;

use super::catalogue::Catalogue;
use super::damaged;
use super::lengths;
use super::random::Random;
use super::refusals::refused_after;
use super::walk::Walk;
use super::Sample;

pub fn samples(random: &mut Random) -> Vec<Sample> {
    let walks = walks(random);
    let cut_short = cut_short(&walks, random);
    let damaged = damaged(&walks, random);
    [walks, cut_short, damaged, any_events(random), longest(random)].concat()
}

/// Each walk ends with all that is refused where it has come to.
fn walks(random: &mut Random) -> Vec<Sample> {
    let catalogue = Catalogue::new();
    (0..900)
        .map(|round| {
            let sections = [1, 1, 1, 2, 2, 3, 5, 8][round % 8];
            let refused = random.pick(&[2, 4, 8, 40]);
            let count = random.within(20..=50 + 50 * sections);
            let mut walk = Walk::new(sections, refused);
            let mut events: Vec<_> = (0..count).map(|_| walk.event(random)).collect();
            events.extend(refused_after(&catalogue, &events, sections - 1));
            Sample::new("walks", writer::sheet(sections, &events))
        })
        .collect()
}

fn cut_short(walks: &[Sample], random: &mut Random) -> Vec<Sample> {
    let cut = |walk: &Sample| walk.sheet[..random.below(walk.sheet.len())].to_vec();
    walks.iter().step_by(3).map(cut).map(|cut| Sample::new("walks: cut short", cut)).collect()
}

fn damaged(walks: &[Sample], random: &mut Random) -> Vec<Sample> {
    walks
        .iter()
        .step_by(3)
        .map(|walk| Sample::new("walks: damaged", damaged::damaged_once(&walk.sheet, random)))
        .collect()
}

/// Events of any kind, one after another.
fn any_events(random: &mut Random) -> Vec<Sample> {
    let catalogue = Catalogue::new();
    (0..150)
        .map(|_| {
            let sections = random.within(1..=2);
            let count = random.within(20..=120);
            let events: Vec<_> =
                (0..count).map(|_| catalogue.event_among(sections, random)).collect();
            Sample::new("any events", writer::sheet(sections, &events))
        })
        .collect()
}

fn longest(random: &mut Random) -> Vec<Sample> {
    const FAMILY: &str = "walks: as long as may be";
    let mut samples = Vec::new();
    for (sections, refused) in [(1, 40), (3, 4), (8, 12)] {
        let mut walk = Walk::new(sections, refused);
        let events = lengths::filling_events(sections, || walk.event(random));
        let sheet = writer::sheet(sections, &events);
        let one_less = sheet[..sheet.len() - 1].to_vec();
        let one_more = [&sheet[..], &[0]].concat();
        samples.extend([sheet, one_less, one_more].map(|sheet| Sample::new(FAMILY, sheet)));
    }
    samples
}
