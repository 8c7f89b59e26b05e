//! Sound sheets, cut short or with bytes changed, put in or taken out.

use crate::writer;

use super::catalogue::Catalogue;
use super::random::Random;
use super::Sample;

pub fn samples(random: &mut Random) -> Vec<Sample> {
    let bases: Vec<Vec<u8>> = (1..=8).map(|sections| base(sections, random)).collect();
    let mut samples = Vec::new();
    samples.extend(bases[..6].iter().flat_map(|base| cut(base)));
    samples.extend(bases[..2].iter().flat_map(|base| changed(base, random)));
    samples.extend(bases[2..4].iter().flat_map(|base| put_in(base, random)));
    samples.extend(bases[3..6].iter().flat_map(|base| taken_out(base)));
    samples.extend(bases[4..].iter().flat_map(|base| swapped(base)));
    samples.extend(bases.iter().flat_map(|base| damaged_often(base, random)));
    samples
}

/// A sound sheet with one event of each kind, and a few more.
fn base(sections: u16, random: &mut Random) -> Vec<u8> {
    let catalogue = Catalogue::new();
    let mut events = catalogue.one_of_each(random);
    events.extend(catalogue.events(3, random));
    writer::sheet(sections, &events)
}

fn cut(base: &[u8]) -> Vec<Sample> {
    (0..base.len()).map(|end| Sample::new("cut short", base[..end].to_vec())).collect()
}

fn changed(base: &[u8], random: &mut Random) -> Vec<Sample> {
    let mut samples = Vec::new();
    for place in 0..base.len() {
        let old = base[place];
        let values = [0, 1, 127, 128, 129, old.wrapping_add(1), old ^ 128, random.byte()];
        for value in values {
            let mut sheet = base.to_vec();
            sheet[place] = value;
            samples.push(Sample::new("byte changed", sheet));
        }
    }
    samples
}

fn put_in(base: &[u8], random: &mut Random) -> Vec<Sample> {
    let mut samples = Vec::new();
    for place in 0..=base.len() {
        for value in [0, 1, 128, 129, random.byte()] {
            let mut sheet = base.to_vec();
            sheet.insert(place, value);
            samples.push(Sample::new("byte put in", sheet));
        }
    }
    samples
}

fn taken_out(base: &[u8]) -> Vec<Sample> {
    let mut samples = Vec::new();
    for count in 1..=2 {
        for place in 0..=base.len() - count {
            let mut sheet = base.to_vec();
            sheet.drain(place..place + count);
            samples.push(Sample::new("bytes taken out", sheet));
        }
    }
    samples
}

fn swapped(base: &[u8]) -> Vec<Sample> {
    (1..base.len())
        .map(|place| {
            let mut sheet = base.to_vec();
            sheet.swap(place - 1, place);
            Sample::new("bytes swapped", sheet)
        })
        .collect()
}

fn damaged_often(base: &[u8], random: &mut Random) -> Vec<Sample> {
    (0..40)
        .map(|_| {
            let mut sheet = base.to_vec();
            for _ in 0..random.within(2..=6) {
                damage(&mut sheet, random);
            }
            Sample::new("damaged often", sheet)
        })
        .collect()
}

/// The sheet with a single byte changed, put in or taken out.
pub fn damaged_once(base: &[u8], random: &mut Random) -> Vec<u8> {
    let mut sheet = base.to_vec();
    damage(&mut sheet, random);
    sheet
}

fn damage(sheet: &mut Vec<u8>, random: &mut Random) {
    let place = random.below(sheet.len());
    match random.below(4) {
        0 => sheet[place] = random.byte(),
        1 => sheet[place] ^= 1 << random.below(8),
        2 => sheet.insert(place, random.byte() % 16),
        _ => drop(sheet.remove(place)),
    }
}
