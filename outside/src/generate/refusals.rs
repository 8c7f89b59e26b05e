//! Every event that is refused, at every stage of every journey. None of them
//! changes anything, so all of them fit into one sheet.

use crate::bench::{Answer, Bell, Bench, Section};
use crate::detector::AxleCounter;
use crate::event::{Action, Event};
use crate::field::Station;
use crate::writer;

use super::catalogue::Catalogue;
use super::journeys;
use super::Sample;

pub fn samples() -> Vec<Sample> {
    let catalogue = Catalogue::new();
    let mut samples = Vec::new();
    for journey in journeys::whole() {
        for place in 0..=journey.len() {
            for stage in stages(&catalogue, &journey[..place]) {
                let refused = refused_after(&catalogue, &stage, journeys::SECTION);
                let sheet = writer::sheet(2, &[stage, refused].concat());
                samples.push(Sample::new("journeys: all refused", sheet));
            }
        }
    }
    samples
}

/// The events that are refused in this section after those that came before.
pub fn refused_after(catalogue: &Catalogue, before: &[Event], number: u16) -> Vec<Event> {
    let section = section_after(before, number);
    let refused = |action: &Action| section.clone().answer(*action).is_refusal();
    let actions = catalogue.by_kind().flatten().copied().filter(refused);
    actions.map(|action| Event { section: number, action }).collect()
}

/// What has happened, and then also a call that is answered, and then any code
/// that can be sent.
fn stages(catalogue: &Catalogue, before: &[Event]) -> Vec<Vec<Event>> {
    let mut stages = vec![before.to_vec()];
    if section_after(before, journeys::SECTION).view().bell != Bell::Idle {
        return stages;
    }
    for (caller, other) in [(Station::Zero, Station::One), (Station::One, Station::Zero)] {
        let call = [Action::Call { station: caller }, Action::Answer { station: other }];
        let called = with(before, &call);
        let section = section_after(&called, journeys::SECTION);
        for &action in catalogue.by_kind().flatten() {
            let sent = matches!(action, Action::Send { .. });
            if sent && section.clone().answer(action) == Answer::Accepted {
                stages.push(with(&called, &[action]));
            }
        }
        stages.push(called);
    }
    stages
}

fn with(before: &[Event], actions: &[Action]) -> Vec<Event> {
    let events = actions.iter().map(|&action| Event { section: journeys::SECTION, action });
    before.iter().copied().chain(events).collect()
}

fn section_after(events: &[Event], number: u16) -> Section<AxleCounter> {
    let mut bench = Bench::fresh(number + 1);
    for &event in events {
        bench.answer(event);
    }
    bench.section(number).expect("the bench has this section").clone()
}
