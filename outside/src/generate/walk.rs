//! Walks through what a bench can do. The events are chosen by what they would
//! come to: most of them get somewhere, the rest are refused for as many
//! different reasons as there are.

use std::collections::BTreeSet;

use crate::bench::{Answer, Bench, Section};
use crate::detector::AxleCounter;
use crate::event::{Action, Event};
use crate::field::{Axles, Consent, Field, Line, Position};

use super::catalogue::Catalogue;
use super::random::Random;

pub struct Walk {
    sections: u16,
    bench: Bench<AxleCounter>,
    /// All actions but those with axles, which are made for each event.
    actions: Vec<Action>,
    /// One event in so many is to be refused.
    refused: usize,
}

/// An action that can be chosen, and what would come of it.
struct Trial {
    action: Action,
    answer: Answer,
    changes: bool,
}

impl Walk {
    pub fn new(sections: u16, refused: usize) -> Self {
        let catalogue = Catalogue::new();
        let actions = catalogue.by_kind().flatten().copied().filter(|&action| !has_axles(action));
        let actions = actions.collect();
        Self { sections, bench: Bench::fresh(sections), actions, refused }
    }

    /// Chooses an event and works it.
    pub fn event(&mut self, random: &mut Random) -> Event {
        let number = random.within(0..=self.sections - 1);
        let section = self.bench.section(number).expect("the bench has this section");
        let trials = self.trials(section, random);
        let action = if random.once_in(self.refused) {
            refused(&trials, random)
        } else {
            useful(&trials, random)
        };
        let missing = random.once_in(80);
        let event =
            Event { section: if missing { number + self.sections } else { number }, action };
        self.bench.answer(event);
        event
    }

    fn trials(&self, section: &Section<AxleCounter>, random: &mut Random) -> Vec<Trial> {
        let with_axles = actions_with_axles(section, random);
        let before = section.view();
        self.actions
            .iter()
            .chain(&with_axles)
            .map(|&action| {
                let mut tried = section.clone();
                let answer = tried.answer(action);
                let changes = !answer.is_refusal() && tried.view() != before;
                Trial { action, answer, changes }
            })
            .collect()
    }
}

fn has_axles(action: Action) -> bool {
    matches!(action, Action::Enters { .. } | Action::Leave { .. })
}

/// Trains of several lengths, and axles leaving: one, all that are there, and
/// some that may be too many.
fn actions_with_axles(section: &Section<AxleCounter>, random: &mut Random) -> Vec<Action> {
    let view = section.view();
    Line::every()
        .flat_map(|line| {
            let any = random.within(1..=250);
            let present = view.line(line).axles;
            let enters = [1, 250, any].map(axles).map(|axles| Action::Enters { line, axles });
            let leave = [1, present, any].map(axles).map(|axles| Action::Leave { line, axles });
            enters.into_iter().chain(leave)
        })
        .collect()
}

/// As many axles, or as many as one event can have.
fn axles(count: u16) -> Axles {
    Axles::from_number(count.clamp(1, 250)).expect("1 to 250 axles")
}

/// An event that is not refused. Those that carry the work on are likelier.
fn useful(trials: &[Trial], random: &mut Random) -> Action {
    let weights = || trials.iter().map(weight);
    let mut drawn = random.below(weights().sum());
    for (trial, weight) in trials.iter().zip(weights()) {
        if drawn < weight {
            return trial.action;
        }
        drawn -= weight;
    }
    unreachable!("the number drawn is below the sum of the weights")
}

fn weight(trial: &Trial) -> usize {
    match trial.action {
        _ if trial.answer.is_refusal() => 0,
        _ if !trial.changes || trial.answer != Answer::Accepted => 1,
        Action::Error { .. } | Action::Fails { .. } => 3,
        Action::Acknowledge { consent: Consent::Withheld, .. } => 20,
        Action::Reset { .. } | Action::Resume { .. } => 120,
        Action::TrolleyStarts { .. } | Action::TrolleyEnds { .. } => 120,
        Action::StopControl { position: Position::Reversed, .. } => 200,
        _ => 80,
    }
}

/// An event that is refused: any answer, then any kind and code that gets it,
/// then any event of these.
fn refused(trials: &[Trial], random: &mut Random) -> Action {
    let mut trials: Vec<&Trial> = trials.iter().filter(|trial| trial.answer.is_refusal()).collect();
    narrow(&mut trials, random, |trial| trial.answer.number().into());
    narrow(&mut trials, random, |trial| match trial.action {
        Action::Send { code, .. } => code.number() << 8,
        action => action.kind().number(),
    });
    trials[random.below(trials.len())].action
}

/// Leaves only those with one of the keys, each key as likely as any other.
fn narrow(trials: &mut Vec<&Trial>, random: &mut Random, key: fn(&Trial) -> u16) {
    let keys: BTreeSet<u16> = trials.iter().map(|trial| key(trial)).collect();
    let keys: Vec<u16> = keys.into_iter().collect();
    let chosen = random.pick(&keys);
    trials.retain(|trial| key(trial) == chosen);
}
