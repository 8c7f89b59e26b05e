//! Holds a program to the reference on every sample.

use std::io;
use std::sync::atomic::{AtomicUsize, Ordering};
use std::thread;

use crate::generate::Sample;
use crate::program::{self, Outcome, Program};

const WORKERS: usize = 2;

/// What has to be printed for a sheet.
pub type Reference = fn(&[u8]) -> String;

/// A sample on which the program printed something else, or ended otherwise.
pub struct Difference<'a> {
    pub index: usize,
    pub sample: &'a Sample,
    pub expected: String,
    pub outcome: Outcome,
}

/// All differences between the program and the reference, in sample order.
pub fn differences<'a>(
    program: Program,
    samples: &'a [Sample],
    reference: Reference,
) -> io::Result<Vec<Difference<'a>>> {
    let next = AtomicUsize::new(0);
    let work = || -> io::Result<Vec<Difference<'a>>> {
        let mut found = Vec::new();
        loop {
            let index = next.fetch_add(1, Ordering::Relaxed);
            let Some(sample) = samples.get(index) else {
                return Ok(found);
            };
            found.extend(difference(program, index, sample, reference)?);
        }
    };
    let mut found = Vec::new();
    thread::scope(|scope| -> io::Result<()> {
        let workers: Vec<_> = (0..WORKERS).map(|_| scope.spawn(work)).collect();
        for worker in workers {
            found.extend(worker.join().expect("a worker panicked")?);
        }
        Ok(())
    })?;
    found.sort_by_key(|difference| difference.index);
    Ok(found)
}

fn difference<'a>(
    program: Program,
    index: usize,
    sample: &'a Sample,
    reference: Reference,
) -> io::Result<Option<Difference<'a>>> {
    let expected = reference(&sample.sheet);
    let outcome = program::run(program, &sample.sheet)?;
    let differs = !outcome.is(&expected);
    Ok(differs.then_some(Difference { index, sample, expected, outcome }))
}

/// The samples for which the reference does not say what is known of them.
pub fn reference_errors(samples: &[Sample], reference: Reference) -> Vec<&Sample> {
    let wrong = |sample: &&Sample| {
        sample.expected.as_ref().is_some_and(|expected| *expected != reference(&sample.sheet))
    };
    samples.iter().filter(wrong).collect()
}
