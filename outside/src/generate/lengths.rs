//! Sheets about as long as a sheet may be, and longer.

use crate::event::{Action, Event};
use crate::field::{Line, Station};
use crate::reader::LONGEST_SHEET;
use crate::writer::Writer;

use super::catalogue::Catalogue;
use super::random::Random;
use super::sound::sound;
use super::Sample;

const LONGEST: &str = "as long as may be";
const TOO_LONG: &str = "too long";

pub fn samples(random: &mut Random) -> Vec<Sample> {
    let calls = sound(LONGEST, 1, &vec![CALL; (LONGEST_SHEET - 1) / 3]);
    let catalogue = Catalogue::new();
    let mixed = sound(LONGEST, 8, &filling_events(8, || catalogue.event(random)));
    let damaged = damaged(&mixed.sheet);
    let too_long = too_long(&mixed.sheet, random);
    [vec![calls, mixed], damaged, too_long].concat()
}

const CALL: Event = Event { section: 0, action: Action::Call { station: Station::Zero } };
const RESET: Event =
    Event { section: 7, action: Action::Reset { line: Line::Down, station: Station::One } };

/// Events that make a sheet of exactly the longest length: the last few bytes
/// are filled with events of three bytes and of four.
pub fn filling_events(sections: u16, mut next: impl FnMut() -> Event) -> Vec<Event> {
    let mut writer = Writer::new(sections);
    let mut events = Vec::new();
    while writer.len() < LONGEST_SHEET - 30 {
        events.push(writer.event(next()).event);
    }
    let room = LONGEST_SHEET - writer.len();
    events.extend(vec![RESET; room % 3]);
    events.extend(vec![CALL; room / 3 - room % 3]);
    events
}

/// The longest sheet with something wrong at its very end or its beginning.
fn damaged(longest: &[u8]) -> Vec<Sample> {
    let with = |place: usize, byte: u8| {
        let mut sheet = longest.to_vec();
        sheet[place] = byte;
        Sample::new(LONGEST, sheet)
    };
    let last = longest.len() - 1;
    vec![
        with(last, 2),
        with(last, 128),
        with(last, 129),
        with(0, 0),
        with(0, 9),
        with(0, 128),
        Sample::new(LONGEST, longest[..last].to_vec()),
        Sample::new(LONGEST, vec![0; LONGEST_SHEET]),
    ]
}

fn too_long(longest: &[u8], random: &mut Random) -> Vec<Sample> {
    let longer = |count: u8, more: &[u8]| {
        let mut sheet = [longest, more].concat();
        sheet[0] = count;
        sheet
    };
    [
        longer(8, &[0]),
        longer(8, &[128]),
        longer(8, &[0, 0, 0]),
        longer(0, &[0]),
        longer(9, &[0, 0, 0]),
        longer(128, &[0]),
        vec![0; LONGEST_SHEET + 1],
        vec![128; LONGEST_SHEET + 1],
        vec![1; 2 * LONGEST_SHEET],
        random.bytes(200_000),
    ]
    .map(|sheet| Sample::new(TOO_LONG, sheet))
    .into()
}
