//! Sheets for timing: one with nothing in it, and sheets as long as may be with
//! different kinds of work.

use crate::bench::Role::Despatching;
use crate::event::Event;
use crate::field::{Code, Line, Turn};
use crate::script::Script;
use crate::writer;

use super::catalogue::Catalogue;
use super::lengths::filling_events;
use super::random::Random;
use super::walk::Walk;
use super::Sample;

pub fn samples(random: &mut Random) -> Vec<Sample> {
    let line = || Script::new(0, Line::Up);
    let bell = line().ring(Despatching, Code::IsLineClear, Turn::None).given_in_error(Despatching);
    let refused = line().call(Despatching).answer(Despatching);
    let train = line().line_clear().train_departs(40).train_arrives(40).train_out();
    let catalogue = Catalogue::new();
    let mut walk = Walk::new(8, 10);
    vec![
        Sample::new("no event", writer::sheet(1, &[])),
        filled("bell only", 1, over_and_over(bell)),
        filled("trains through", 1, over_and_over(train)),
        filled("nearly all refused", 1, over_and_over(refused)),
        filled("walk in 8 sections", 8, || walk.event(random)),
        filled("any events", 8, || catalogue.event_among(8, random)),
    ]
}

fn over_and_over(script: Script) -> impl FnMut() -> Event {
    let mut events = script.into_events().into_iter().cycle();
    move || events.next().expect("a script has events")
}

fn filled(family: &'static str, sections: u16, next: impl FnMut() -> Event) -> Sample {
    Sample::new(family, writer::sheet(sections, &filling_events(sections, next)))
}
