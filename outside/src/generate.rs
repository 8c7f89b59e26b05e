//! The sheets to compare on, in families; the same ones in every run.

mod catalogue;
mod counts;
mod damaged;
mod journeys;
mod known;
mod lengths;
mod noise;
mod numbers;
mod random;
mod refusals;
mod registers;
mod runs;
mod sound;
mod timing;
mod values;
mod walk;

pub use catalogue::Catalogue;
pub use random::Random;
pub use walk::Walk;

use std::collections::HashSet;

use crate::examples;

const SEED: u64 = 20_250_614;

/// A sheet to compare on.
#[derive(Clone, Debug)]
pub struct Sample {
    pub family: &'static str,
    pub sheet: Vec<u8>,
    /// What has to be printed for it, where that is known without reading the
    /// sheet. The reference is held to it before any program is.
    pub expected: Option<String>,
}

impl Sample {
    fn new(family: &'static str, sheet: Vec<u8>) -> Self {
        Self { family, sheet, expected: None }
    }
}

/// The samples for listings, family by family.
pub fn for_listings() -> Vec<Sample> {
    let mut random = Random::new(SEED);
    no_sheet_twice([
        known::samples(),
        sound::samples(&mut random),
        damaged::samples(&mut random),
        numbers::samples(),
        values::samples(),
        noise::samples(&mut random),
        lengths::samples(&mut random),
    ])
}

/// The samples for registers, family by family.
pub fn for_registers() -> Vec<Sample> {
    let mut random = Random::new(SEED);
    no_sheet_twice([
        registers::samples(),
        examples(),
        journeys::samples(),
        refusals::samples(),
        counts::samples(&mut random),
        runs::samples(&mut random),
        some_for_listings(),
    ])
}

/// The samples to time programs by.
pub fn for_timing() -> Vec<Sample> {
    timing::samples(&mut Random::new(SEED))
}

fn examples() -> Vec<Sample> {
    let examples = examples::all();
    examples.iter().map(|example| Sample::new("examples", example.sheet().to_vec())).collect()
}

/// What is told of a sheet's faults is told in a register too.
fn some_for_listings() -> Vec<Sample> {
    const ONE_IN: usize = 10;
    let samples = for_listings().into_iter().step_by(ONE_IN);
    samples.map(|sample| Sample::new("from the listings", sample.sheet)).collect()
}

fn no_sheet_twice<const FAMILIES: usize>(families: [Vec<Sample>; FAMILIES]) -> Vec<Sample> {
    let mut seen = HashSet::new();
    families.into_iter().flatten().filter(|sample| seen.insert(sample.sheet.clone())).collect()
}
