//! Every action there is, by kind, and random choices among them.

use crate::event::{Action, Event};
use crate::field::{Code, Consent, Field, Line, Station, Turn};

use super::random::Random;

/// Sections to name: those of benches, and those where a number grows a byte.
pub const SECTIONS: [u16; 15] = [0, 1, 2, 3, 4, 5, 6, 7, 8, 9, 127, 128, 16_383, 16_384, 65_535];

pub struct Catalogue {
    by_kind: Vec<Vec<Action>>,
}

impl Catalogue {
    pub fn new() -> Self {
        let by_kind = vec![
            one(|station| Action::Call { station }),
            one(|station| Action::Answer { station }),
            sends(),
            acknowledgements(),
            one(|station| Action::Error { station }),
            two(|line, position| Action::StopControl { line, position }),
            two(|line, position| Action::HomeControl { line, position }),
            two(|line, axles| Action::Enters { line, axles }),
            two(|line, axles| Action::Leave { line, axles }),
            one(|line| Action::TrolleyStarts { line }),
            two(|line, place| Action::TrolleyEnds { line, place }),
            one(|line| Action::Fails { line }),
            two(|line, station| Action::Reset { line, station }),
            two(|line, station| Action::Resume { line, station }),
            two(|line, track| Action::Roll { line, track }),
        ];
        Self { by_kind }
    }

    /// The actions of each kind, in the order of the kinds.
    pub fn by_kind(&self) -> impl Iterator<Item = &[Action]> {
        self.by_kind.iter().map(Vec::as_slice)
    }

    /// A random event; every kind is as likely as any other.
    pub fn event(&self, random: &mut Random) -> Event {
        let kind = random.below(self.by_kind.len());
        self.event_of_kind(kind, random)
    }

    pub fn event_of_kind(&self, kind: usize, random: &mut Random) -> Event {
        Event { section: random.pick(&SECTIONS), action: random.pick(&self.by_kind[kind]) }
    }

    /// A random event in one of so many sections.
    pub fn event_among(&self, sections: u16, random: &mut Random) -> Event {
        Event { section: random.within(0..=sections - 1), ..self.event(random) }
    }

    pub fn events(&self, count: usize, random: &mut Random) -> Vec<Event> {
        (0..count).map(|_| self.event(random)).collect()
    }

    /// One random event of each kind.
    pub fn one_of_each(&self, random: &mut Random) -> Vec<Event> {
        (0..self.by_kind.len()).map(|kind| self.event_of_kind(kind, random)).collect()
    }
}

fn one<A: Field>(make: impl Fn(A) -> Action) -> Vec<Action> {
    A::every().map(make).collect()
}

fn two<A: Field, B: Field>(make: impl Fn(A, B) -> Action) -> Vec<Action> {
    let make = &make;
    A::every().flat_map(|a| B::every().map(move |b| make(a, b))).collect()
}

fn sends() -> Vec<Action> {
    let mut all = Vec::new();
    for line in Line::every() {
        for station in Station::every() {
            for code in Code::every() {
                all.extend(Turn::every().map(|turn| Action::Send { line, station, code, turn }));
            }
        }
    }
    all
}

fn acknowledgements() -> Vec<Action> {
    let mut all = Vec::new();
    for station in Station::every() {
        for consent in Consent::every() {
            all.extend(Turn::every().map(|turn| Action::Acknowledge { station, consent, turn }));
        }
    }
    all
}
