//! Looks for a run that breaks a law, in walks far beyond the samples.

use crate::detector::AxleCounter;
use crate::event::Event;
use crate::generate::{Catalogue, Random, Walk};
use crate::listing;
use crate::run::Run;
use crate::watch::{Violation, Watcher};
use crate::writer;

const SEED: u64 = 1_844;
const LONGEST_RUN: u16 = 3_000;

/// Whether the laws hold in runs that have so many events together. The events
/// of the first run in which one is broken are printed.
pub fn laws_hold(events: usize) -> bool {
    let mut random = Random::new(SEED);
    let (mut runs, mut worked) = (0, 0);
    while worked < events {
        let sections = random.within(1..=3);
        let list = events_of_a_run(sections, &mut random);
        if let Some(violation) = violation(sections, &list) {
            println!("a law is broken: {violation}");
            let sheet = writer::sheet(sections, &list[..=violation.index]);
            print!("{}", listing::of_sheet(&sheet));
            return false;
        }
        runs += 1;
        worked += list.len();
    }
    println!("the laws hold in {runs} runs of {worked} events");
    true
}

/// A walk, or events of any kind.
fn events_of_a_run(sections: u16, random: &mut Random) -> Vec<Event> {
    let count = random.within(100..=LONGEST_RUN);
    if random.once_in(4) {
        let catalogue = Catalogue::new();
        return (0..count).map(|_| catalogue.event_among(sections, random)).collect();
    }
    let refused = random.pick(&[2, 4, 8, 40]);
    let mut walk = Walk::new(sections, refused);
    (0..count).map(|_| walk.event(random)).collect()
}

fn violation(sections: u16, events: &[Event]) -> Option<Violation> {
    let mut run = Run::<AxleCounter>::new(sections);
    let mut watcher = Watcher::new(sections);
    events.iter().find_map(|&event| watcher.see(&run.step(event)).err())
}
