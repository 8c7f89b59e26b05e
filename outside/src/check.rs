//! Checks the programs: their output on every sample, and what the samples
//! reach.

use std::fmt;
use std::io;
use std::path::Path;

use crate::compare::{self, Reference};
use crate::coverage::Coverage;
use crate::detector::AxleCounter;
use crate::generate::{self, Sample};
use crate::listing;
use crate::program::Program;
use crate::reader::Reader;
use crate::register::BY_DETECTOR;
use crate::report;
use crate::run::Run;
use crate::watch;

/// Whether the program lists every sheet as it should.
pub fn lister(path: &Path) -> io::Result<Verdict> {
    let samples = generate::for_listings();
    println!("listings");
    if !reference_is_right(&samples, listing::of_sheet) {
        return Ok(Verdict::NotCompared);
    }
    let differing = run(Program { path, arguments: &[] }, &samples, listing::of_sheet)?;
    Ok(Verdict::Compared { sheets: samples.len(), differing })
}

/// Whether the program keeps every register as it should, over every kind of
/// detector, where the samples reach all that can be reached and no law is
/// broken in them.
pub fn bench(path: &Path) -> io::Result<Verdict> {
    let samples = generate::for_registers();
    let sound = laws_hold(&samples) & everything_reached(&samples) & detectors_agree(&samples);
    let right = BY_DETECTOR.iter().all(|&(_, register)| reference_is_right(&samples, register));
    if !sound || !right {
        return Ok(Verdict::NotCompared);
    }
    let mut differing = 0;
    for (arguments, register) in BY_DETECTOR {
        println!("registers, arguments: [{}]", arguments.join(" "));
        differing += run(Program { path, arguments }, &samples, register)?;
    }
    Ok(Verdict::Compared { sheets: samples.len(), differing })
}

/// What came of a comparison.
#[derive(Clone, Copy, PartialEq, Eq)]
pub enum Verdict {
    /// Something was wrong with the reference or with the samples.
    NotCompared,
    Compared {
        sheets: usize,
        differing: usize,
    },
}

impl Verdict {
    pub fn all_agree(self) -> bool {
        matches!(self, Self::Compared { differing: 0, .. })
    }
}

impl fmt::Display for Verdict {
    fn fmt(&self, f: &mut fmt::Formatter<'_>) -> fmt::Result {
        match self {
            Self::NotCompared => write!(f, "not compared"),
            Self::Compared { sheets, differing: 0 } => {
                write!(f, "compared {sheets} sheets: all agree")
            }
            Self::Compared { sheets, differing } => {
                write!(f, "compared {sheets} sheets: {differing} differ")
            }
        }
    }
}

fn run(program: Program, samples: &[Sample], reference: Reference) -> io::Result<usize> {
    let differences = compare::differences(program, samples, reference)
        .map_err(|error| io::Error::other(format!("{}: {error}", program.path.display())))?;
    print!("{}", report::first_differences(&differences));
    print!("{}", report::table(samples, &differences));
    Ok(differences.len())
}

/// The reference is held to what is known of the samples, before any program.
fn reference_is_right(samples: &[Sample], reference: Reference) -> bool {
    let errors = compare::reference_errors(samples, reference);
    if let Some(sample) = errors.first() {
        let (count, sheet) = (errors.len(), report::bytes(&sample.sheet));
        println!("the reference itself is wrong on {count} sheets, first on {sheet}");
    }
    errors.is_empty()
}

fn detectors_agree(samples: &[Sample]) -> bool {
    let agree = |sample: &Sample| {
        let mut registers = BY_DETECTOR.iter().map(|(_, register)| register(&sample.sheet));
        let first = registers.next();
        registers.all(|register| Some(&register) == first.as_ref())
    };
    let differing = samples.iter().find(|sample| !agree(sample));
    if let Some(sample) = differing {
        println!("the reference depends on the detector for {}", report::bytes(&sample.sheet));
    }
    differing.is_none()
}

fn laws_hold(samples: &[Sample]) -> bool {
    for sample in samples {
        if let Some(violation) = watch::first_violation::<AxleCounter>(&sample.sheet) {
            println!("a law is broken: {violation}\n{}", report::bytes(&sample.sheet));
            print!("{}", listing::of_sheet(&sample.sheet));
            return false;
        }
    }
    println!("the laws hold in {} runs", samples.len());
    true
}

/// Counts what the samples reach, and prints it.
fn everything_reached(samples: &[Sample]) -> bool {
    let mut coverage = Coverage::new();
    for sample in samples {
        let Ok(reader) = Reader::open(&sample.sheet) else {
            continue;
        };
        let mut run = Run::<AxleCounter>::new(reader.sections());
        for placed in reader.map_while(Result::ok) {
            coverage.count(&run.step(placed.event));
        }
    }
    println!("answers reached");
    print!("{}", coverage.report());
    coverage.is_complete()
}
