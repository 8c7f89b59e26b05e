//! Numbers at the edges of their written form, good and bad, at every kind of
//! place where a sheet has a number.

use super::Sample;

/// A place for a number: the bytes before it, and bytes that can follow it.
struct Place {
    family: &'static str,
    before: &'static [u8],
    after: &'static [u8],
}

const PLACES: [Place; 6] = [
    Place { family: "number as count", before: &[], after: &[0, 0, 0] },
    Place { family: "number as kind", before: &[1], after: &[0, 1, 0] },
    Place { family: "number as section", before: &[2, 4, 1, 1, 0], after: &[1] },
    Place { family: "number as first field", before: &[3, 12, 2], after: &[1] },
    Place { family: "number as last field", before: &[4, 7, 3, 1], after: &[1, 0, 1] },
    Place { family: "number as middle field", before: &[5, 2, 4, 0, 1], after: &[2, 15] },
];

pub fn samples() -> Vec<Sample> {
    let shapes = shapes();
    PLACES
        .iter()
        .flat_map(|place| shapes.iter().flat_map(|shape| at(place, shape)))
        .chain(every_byte())
        .collect()
}

/// Every byte as the count and as a kind.
fn every_byte() -> impl Iterator<Item = Sample> {
    (0..=u8::MAX)
        .flat_map(|byte| [vec![byte], vec![1, byte]])
        .map(|sheet| Sample::new("every byte", sheet))
}

/// The number at this place, with the sheet ending there and going on.
fn at(place: &Place, shape: &[u8]) -> [Sample; 2] {
    let ending = [place.before, shape].concat();
    let going_on = [place.before, shape, place.after].concat();
    [Sample::new(place.family, ending), Sample::new(place.family, going_on)]
}

/// One, two and three bytes from the edges of what a byte can say.
fn shapes() -> Vec<Vec<u8>> {
    const FIRST: [u8; 8] = [0, 8, 127, 128, 129, 131, 132, 255];
    const SECOND: [u8; 4] = [0, 127, 128, 255];
    const THIRD: [u8; 4] = [0, 127, 128, 255];
    let mut shapes = Vec::new();
    for first in FIRST {
        shapes.push(vec![first]);
        for second in SECOND {
            shapes.push(vec![first, second]);
            shapes.extend(THIRD.map(|third| vec![first, second, third]));
        }
    }
    shapes
}
