//! Times the bench against the reference. Each is run as a process of its own
//! on the same sheets, so that starting up counts for both.

use std::env;
use std::io;
use std::path::Path;
use std::time::{Duration, Instant};

use crate::detector::AxleCounter;
use crate::generate;
use crate::program::{self, Program};
use crate::register;

const ROUNDS: usize = 21;

/// Prints how long both take for each sheet. False if one of them prints a
/// wrong register, because its time then says nothing.
pub fn measure(bench: &Path) -> io::Result<bool> {
    let this = env::current_exe()?;
    let bench = Program { path: bench, arguments: &[] };
    let reference = Program { path: &this, arguments: &["register"] };
    println!("median and best of {ROUNDS} runs, in milliseconds");
    println!("{:<22}{:>8}{:>18}{:>18}{:>8}", "sheet", "bytes", "bench", "reference", "ratio");
    for sample in generate::for_timing() {
        let (mut bench_times, mut reference_times) = (Vec::new(), Vec::new());
        let expected = register::of_sheet::<AxleCounter>(&sample.sheet);
        for _ in 0..ROUNDS {
            let first = time(bench, &sample.sheet, &expected)?;
            let second = time(reference, &sample.sheet, &expected)?;
            let (Some(first), Some(second)) = (first, second) else {
                println!("{}: not the register that is expected", sample.family);
                return Ok(false);
            };
            bench_times.push(first);
            reference_times.push(second);
        }
        let (bench, reference) = (Times::of(bench_times), Times::of(reference_times));
        let ratio = bench.median.as_secs_f64() / reference.median.as_secs_f64();
        let (family, bytes) = (sample.family, sample.sheet.len());
        println!("{family:<22}{bytes:>8}{:>18}{:>18}{ratio:>8.2}", bench.show(), reference.show());
    }
    Ok(true)
}

/// How long the program takes for the sheet, if it prints what is expected.
fn time(program: Program, sheet: &[u8], expected: &str) -> io::Result<Option<Duration>> {
    let start = Instant::now();
    let outcome = program::run(program, sheet)?;
    let taken = start.elapsed();
    Ok(outcome.is(expected).then_some(taken))
}

struct Times {
    median: Duration,
    best: Duration,
}

impl Times {
    fn of(mut times: Vec<Duration>) -> Self {
        times.sort();
        Self { median: times[times.len() / 2], best: times[0] }
    }

    fn show(&self) -> String {
        let [median, best] = [self.median, self.best].map(|time| time.as_secs_f64() * 1_000.0);
        format!("{median:.2} ({best:.2})")
    }
}
